"""A stand-in for s3fs, which Debian 12 lacks: the store s3:// of fsspec, on boto3."""
import boto3
from botocore.exceptions import ClientError
from fsspec import AbstractFileSystem
from fsspec.spec import AbstractBufferedFile


class S3File(AbstractBufferedFile):
    def _fetch_range(self, start, end):
        bucket, _, key = self.path.partition("/")
        return self.fs.s3.get_object(Bucket=bucket, Key=key, Range=f"bytes={start}-{end - 1}")["Body"].read()


class S3FileSystem(AbstractFileSystem):
    protocol = ("s3", "s3a")

    def __init__(self, endpoint_url=None, **more):
        super().__init__(**more)
        self.s3 = boto3.client("s3", endpoint_url=endpoint_url, region_name="us-east-1")

    def _open(self, path, mode="rb", block_size=None, **more):
        return S3File(self, path, mode, block_size or 5 << 20, **more)

    def ls(self, path, detail=True, **more):
        bucket, _, key = self._strip_protocol(path).partition("/")
        found = {}
        for prefix in (key.rstrip("/") + "/" if key else "", key):
            for page in self.s3.get_paginator("list_objects_v2").paginate(Bucket=bucket, Prefix=prefix, Delimiter="/"):
                for it in page.get("CommonPrefixes", []) if prefix != key or not key else []:
                    found[it["Prefix"].rstrip("/")] = {"size": 0, "type": "directory"}
                for it in page.get("Contents", []):
                    if prefix != key or it["Key"] == key or not key:
                        found[it["Key"]] = {"size": it["Size"], "type": "file", "ETag": it["ETag"], "LastModified": it["LastModified"]}
        if not found:
            raise FileNotFoundError(path)
        entries = [{"name": f"{bucket}/{name}", **it} for name, it in found.items()]
        return entries if detail else [it["name"] for it in entries]

    def info(self, path, **more):
        path = self._strip_protocol(path)
        bucket, _, key = path.partition("/")
        try:
            it = self.s3.head_object(Bucket=bucket, Key=key) if key else {}
        except ClientError:
            it = {}
        if it:
            return {"name": path, "size": it["ContentLength"], "type": "file", "ETag": it["ETag"], "LastModified": it["LastModified"]}
        self.ls(path)
        return {"name": path, "size": 0, "type": "directory"}

    def mkdir(self, path, **more):
        self.s3.create_bucket(Bucket=path)

    def pipe_file(self, path, value, **more):
        bucket, _, key = self._strip_protocol(path).partition("/")
        self.s3.put_object(Bucket=bucket, Key=key, Body=value)

    def put_file(self, lpath, rpath, **more):
        bucket, _, key = self._strip_protocol(rpath).partition("/")
        self.s3.upload_file(lpath, bucket, key)

    def cp_file(self, path1, path2, **more):
        bucket, _, key = self._strip_protocol(path2).partition("/")
        self.s3.copy_object(Bucket=bucket, Key=key, CopySource=self._strip_protocol(path1))

    def rm_file(self, path):
        bucket, _, key = self._strip_protocol(path).partition("/")
        self.s3.delete_object(Bucket=bucket, Key=key)

    def _rm(self, path):
        self.rm_file(path)
