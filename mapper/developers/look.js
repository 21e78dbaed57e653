// What is wrong with a page as it stands in a frame: texts that cover each other or leave their drawing, and parts broader than the page.
function faults(page) {
  'use strict';

  // The four corners of a text on the screen, a little within its box: letters do not fill it.
  function corners(text) {
    var b = text.getBBox(), m = text.getScreenCTM(), slack = b.height * 0.14;
    return [[b.x, b.y + slack], [b.x + b.width, b.y + slack], [b.x + b.width, b.y + b.height - slack], [b.x, b.y + b.height - slack]]
      .map(function (p) { return [m.a * p[0] + m.c * p[1] + m.e, m.b * p[0] + m.d * p[1] + m.f]; });
  }

  // Whether a line along a side of the one lies between the two.
  function parted(one, other) {
    return one.some(function (a, k) {
      var b = one[(k + 1) % 4], across = [b[1] - a[1], a[0] - b[0]];
      function ends(shape) {
        var along = shape.map(function (p) { return p[0] * across[0] + p[1] * across[1]; });
        return [Math.min.apply(null, along), Math.max.apply(null, along)];
      }
      var x = ends(one), y = ends(other);
      return x[1] <= y[0] || y[1] <= x[0];
    });
  }

  var found = [];
  Array.prototype.forEach.call(page.querySelectorAll('svg.map, svg.chart'), function (svg) {
    var room = svg.getBoundingClientRect();
    if (!room.width) return;
    var texts = Array.prototype.filter.call(svg.querySelectorAll('text'), function (t) { return t.getClientRects().length && t.textContent; });
    var shapes = texts.map(corners);
    shapes.forEach(function (shape, k) {
      shape.forEach(function (p) {
        var out = p[0] < room.left - 1 || p[0] > room.right + 1 || p[1] < room.top - 1 || p[1] > room.bottom + 1;
        if (out) found.push('cut off: ' + texts[k].textContent);
      });
      for (var j = 0; j < k; j++) {
        if (parted(shape, shapes[j]) || parted(shapes[j], shape)) continue;
        found.push('over each other: ' + texts[j].textContent + ' / ' + texts[k].textContent);
      }
    });
  });
  var broad = page.documentElement.clientWidth;
  Array.prototype.forEach.call(page.querySelectorAll('body *'), function (part) {
    var box = part.getBoundingClientRect();
    if (box.width && box.right > broad + 1 && !part.closest('.box')) found.push('broader than the page: ' + part.tagName);
  });
  return found;
}
