# Prints JSON lines with ids instead of names, like canboat's -camel: jq -cf named.jq
#
# `COG Reference` is `cogReference`, and the message gets an `id`, such as `cogSogRapidUpdate`. An id depends only on its name, so it
# is the same in each run. In a pipe put the recipes that use names (convert, signalk.jq, last.jq) before this one.
include "n2k" {search: "./"};

# A list contains sets, or flags, which have no names.
def names: .description, (.fields | keys_unsorted[], if .list then .list | arrays | .[] | objects | keys_unsorted[] else empty end);
def renamed($ids): . as $fields | reduce keys_unsorted[] as $name ({}; setpath($ids[$name]; $fields[$name]));

# The state contains the ids of the names so far, each as a path.
foreach lines as $m ({};
    if [.[$m | names]] | contains([null]) then reduce ($m | names) as $name (.; .[$name] = [$name | camel]) else . end;
    . as $ids | $m
    | setpath(["fields"]; .fields | renamed($ids) | if .list then (.list | arrays | .[] | objects) |= renamed($ids) else . end)
    | setpath(["id"]; $ids[.description][0]))
