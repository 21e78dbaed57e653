// Hovering: tells the node nearest to the pointer, or the well under it. Arrow keys move from node to node.
(function () {
  'use strict';
  var data = JSON.parse(document.getElementById('told').textContent);
  var box = document.querySelector('.told');
  var drawing = document.querySelector('.drawing');
  var current = 0;

  function nearest(list, value) {
    var best = 0;
    for (var k = 1; k < list.length; k++) {
      if (Math.abs(list[k] - value) < Math.abs(list[best] - value)) best = k;
    }
    return best;
  }

  function apart(x, y, px, py, frame) {
    return Math.hypot((x - px) * frame.width, (y - py) * frame.height);
  }

  function closest(xs, ys, px, py, frame) {
    var best = -1, least = Infinity;
    for (var k = 0; k < xs.length; k++) {
      var d = apart(xs[k], ys[k], px, py, frame);
      if (d < least) { least = d; best = k; }
    }
    return { at: best, distance: least };
  }

  function columnOf(node) { return data.list ? node : node % data.x.length; }
  function rowOf(node) { return data.list ? node : Math.floor(node / data.x.length); }

  function line(words, tag, kind) {
    var part = document.createElement(tag || 'div');
    part.textContent = words;
    if (kind) part.className = kind;
    box.appendChild(part);
  }

  function tellNode(node) {
    var level = data.level[node];
    var failed = level.charAt(0) === '!';
    box.textContent = '';
    var name = data.names ? 'Node ' + data.names[node] : 'Node';
    line(failed && data.thin && !data.list ? 'Nodes around here' : name, 'strong');
    line('x ' + data.east[columnOf(node)] + ', y ' + data.north[rowOf(node)]);
    if (failed) {
      line('no level: ' + data.words[level.slice(1)], 'div', 'none');
      return;
    }
    line('level ' + level + ' m');
    line('± ' + data.deviation[node] + ' m (standard deviation; variance ' + data.variance[node] + ' m²)');
    if (data.outside.charAt(node) === '1') line('outside the wells: not known from them', 'div', 'none');
    line('the arithmetic held (' + data.words[0] + ')');
  }

  // All wells at a place: several may be taken to be at one spot.
  function tellWells(at) {
    box.textContent = '';
    data.wells.forEach(function (well) { if (well[0] === at[0] && well[1] === at[1]) tellWell(well); });
  }

  function tellWell(well) {
    line('Well ' + well[2], 'strong');
    line('level in the list ' + well[3] + ' m');
    if (well[4]) line('the other wells say ' + well[4] + ' m');
  }

  function put(svg, frame, x, y) {
    var room = drawing.getBoundingClientRect();
    var left = frame.left - room.left + x * frame.width, top = frame.top - room.top + y * frame.height;
    box.hidden = false;
    var wide = box.offsetWidth, high = box.offsetHeight;
    var right = left + 14 + wide <= room.width;
    box.style.left = Math.max(0, Math.min(right ? left + 14 : left - 14 - wide, room.width - wide)) + 'px';
    box.style.top = Math.max(0, top - high - 12 >= 0 ? top - high - 12 : Math.min(top + 14, room.height - high)) + 'px';
    var mark = svg.querySelector('.mark'), sheet = svg.querySelector('.frame');
    mark.setAttribute('cx', +sheet.getAttribute('x') + x * sheet.getAttribute('width'));
    mark.setAttribute('cy', +sheet.getAttribute('y') + y * sheet.getAttribute('height'));
    mark.setAttribute('visibility', 'visible');
  }

  function hide(svg) {
    box.hidden = true;
    svg.querySelector('.mark').setAttribute('visibility', 'hidden');
  }

  function showNode(svg, node) {
    current = node;
    tellNode(node);
    put(svg, svg.querySelector('.frame').getBoundingClientRect(), data.x[columnOf(node)], data.y[rowOf(node)]);
  }

  function point(svg, event) {
    var frame = svg.querySelector('.frame').getBoundingClientRect();
    var x = (event.clientX - frame.left) / frame.width, y = (event.clientY - frame.top) / frame.height;
    if (x < 0 || x > 1 || y < 0 || y > 1) return hide(svg);
    var well = closest(data.wells.map(function (w) { return w[0]; }), data.wells.map(function (w) { return w[1]; }), x, y, frame);
    if (well.distance < 7) {
      tellWells(data.wells[well.at]);
      return put(svg, frame, data.wells[well.at][0], data.wells[well.at][1]);
    }
    if (!data.x.length) return hide(svg);
    if (data.list) {
      var dot = closest(data.x, data.y, x, y, frame);
      return dot.distance < 20 ? showNode(svg, dot.at) : hide(svg);
    }
    var c = nearest(data.x, x), r = nearest(data.y, y);
    var reach = 14 + step(data.x) * frame.width + step(data.y) * frame.height;
    if (apart(data.x[c], data.y[r], x, y, frame) > reach) return hide(svg);
    showNode(svg, r * data.x.length + c);
  }

  function step(list) { return list.length > 1 ? Math.abs(list[1] - list[0]) : 0; }

  function key(svg, event) {
    var across = data.list ? 1 : data.x.length;
    var move = { ArrowLeft: -1, ArrowRight: 1, ArrowUp: across, ArrowDown: -across }[event.key];
    if (event.key === 'Escape') return hide(svg);
    if (!move || !data.level.length) return;
    event.preventDefault();
    if (current + move >= 0 && current + move < data.level.length) showNode(svg, current + move);
  }

  Array.prototype.forEach.call(document.querySelectorAll('svg.map'), function (svg) {
    // A browser shows the title as a tip of its own, over ours: keep it for screen readers alone.
    var title = svg.querySelector('title');
    svg.setAttribute('aria-label', title.textContent + '. ' + svg.querySelector('desc').textContent);
    svg.removeAttribute('aria-labelledby');
    title.remove();
    svg.addEventListener('pointermove', function (event) { point(svg, event); });
    svg.addEventListener('pointerdown', function (event) { point(svg, event); });
    svg.addEventListener('pointerleave', function (event) { if (event.pointerType === 'mouse') hide(svg); });
    svg.addEventListener('keydown', function (event) { key(svg, event); });
    document.addEventListener('pointerdown', function (event) { if (!drawing.contains(event.target)) hide(svg); });
  });
}());
