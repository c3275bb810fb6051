// Appended to a page in frame.html: prints the page's width, how much of it the page takes, whether times below a chart
// overlap, and, with the pointer in the middle of the first chart, the value shown there.
addEventListener("load", function () {
  var told = [innerWidth, document.documentElement.scrollWidth <= innerWidth ? "fits" : "scrolls"]
  document.querySelectorAll(".plot .x").forEach(function (times) {
    var last = -Infinity
    Array.from(times.children, function (time) { return time.getBoundingClientRect() }).filter(function (box) { return box.width }).forEach(function (box) {
      if (box.left < last + 3) told.push("overlap")
      last = box.right
    })
  })
  var svg = document.querySelector(".plot svg")
  if (svg) {
    var box = svg.getBoundingClientRect()
    svg.parentNode.dispatchEvent(new PointerEvent("pointermove", { clientX: box.left + box.width / 2, clientY: box.top + 20, bubbles: true }))
    var tip = document.querySelector(".tip")
    told.push(tip ? Array.from(tip.childNodes, function (part) { return part.textContent }).join(", ") : "nothing")
  }
  parent.postMessage(told.join(" "), "*")
})
