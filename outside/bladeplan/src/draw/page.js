'use strict';
// While the hand moves, the sheet is moved as a picture; when it rests, what is seen is drawn anew. Print takes all moves off again.
(() => {
  const at = id => document.getElementById(id);
  const desk = at('desk'), sheet = desk.querySelector('svg'), moved = at('moved'), labels = at('labels');
  const PIXELS = 96 / 25.4; // of a millimetre, unscaled
  const DEEPEST = 4e4, LABELS = 800, ROOM = 62; // pixels a millimetre at most; labels at most; pixels that a label takes
  const NUMBERS = 12 / (at('findings')?.dataset.type ?? 1); // of findings: 12 pixels at most
  const [scale, left, top] = desk.dataset.plan.split(' ').map(Number);
  const [boxX, boxY, boxWidth, boxHeight] = desk.dataset.box.split(' ').map(Number);
  const { width, height } = sheet.viewBox.baseVal;
  const view = { x: 0, y: 0, k: 1 }; // the millimetre in the desk's corner, and pixels a millimetre
  let drawn = { x: 0, y: 0, k: PIXELS }; // the same, of what is drawn
  let whole = 1, waiting = 0, points = null, chosen = null;

  function fit(x, y, w, h) {
    view.k = Math.max(0.2, Math.min(desk.clientWidth / w, desk.clientHeight / h) * 0.98);
    view.x = x + (w - desk.clientWidth / view.k) / 2;
    view.y = y + (h - desk.clientHeight / view.k) / 2;
    show();
  }

  function fitPlan() {
    fit(boxX, boxY, boxWidth, boxHeight);
    whole = view.k;
  }

  function show() {
    sheet.style.willChange = 'transform';
    sheet.style.transform = `translate(${(drawn.x - view.x) * view.k}px,${(drawn.y - view.y) * view.k}px) scale(${view.k / drawn.k})`;
    clearTimeout(waiting);
    waiting = setTimeout(settle, 120);
  }

  // when the hand rests: drawn sharp, marks that can be seen, numbers and labels in the size of the screen
  function settle() {
    drawn = { ...view };
    sheet.style.willChange = sheet.style.transform = '';
    moved.setAttribute('transform', `scale(${view.k / PIXELS}) translate(${-view.x} ${-view.y})`);
    sheet.style.setProperty('--k', Math.min(1, NUMBERS / view.k));
    for (const marks of at('marks').children) marks.classList.toggle('small', marks.dataset.r * view.k < 0.5);
    label();
  }

  function zoom(times, x, y) {
    const k = Math.min(DEEPEST, Math.max(whole / 4, view.k * times));
    view.x += x / view.k - x / k;
    view.y += y / view.k - y / k;
    view.k = k;
    show();
  }

  function goTo(x, y, k) {
    view.k = Math.min(DEEPEST, Math.max(whole, k));
    view.x = x - desk.clientWidth / 2 / view.k;
    view.y = y - desk.clientHeight / 2 / view.k;
    show();
  }

  // ---- labels: of the vertices in view, where the edges are long enough to hold them
  const edge = level => scale / Math.sqrt(3) ** level;
  function place(line) {
    const [a, b, m, level] = line.split(' ').map(Number), part = 3 ** m;
    return { text: `${a},${b},${m}`, x: left + scale * (a + b / 2) / part, y: top - scale * b * Math.sqrt(3) / 2 / part, edge: edge(level) };
  }

  function inView() {
    points ??= at('points').textContent.trim().split('\n').map(place);
    const right = view.x + desk.clientWidth / view.k, bottom = view.y + desk.clientHeight / view.k;
    return points.filter(p => p.x > view.x && p.x < right && p.y > view.y && p.y < bottom && p.edge * view.k > ROOM);
  }

  function label() {
    labels.textContent = '';
    at('too-many').hidden = true;
    if (!at('labelled').checked) return;
    const seen = inView();
    at('too-many').hidden = seen.length > 0 && seen.length <= LABELS;
    if (seen.length > LABELS) return;
    labels.setAttribute('font-size', 10.5 / view.k);
    labels.setAttribute('stroke-width', 3 / view.k);
    for (const p of seen) {
      const text = document.createElementNS(sheet.namespaceURI, 'text');
      text.setAttribute('x', p.x + 7 / view.k);
      text.setAttribute('y', p.y - 5 / view.k);
      text.textContent = p.text;
      labels.append(text);
    }
  }

  // ---- the list
  function choose(item) {
    const marks = [at('ring' + item.dataset.ring), at('box' + item.dataset.ring)];
    for (const old of document.querySelectorAll('.chosen')) old.classList.remove('chosen');
    chosen = chosen === item ? null : item;
    if (!chosen) return fitPlan();
    item.classList.add('chosen');
    for (const mark of marks) {
      mark.classList.add('chosen');
      mark.parentNode.append(mark); // above the others
    }
    const [x, y, level] = item.dataset.at.split(' ').map(Number);
    goTo(x, y, 70 / edge(level));
  }

  for (const item of document.querySelectorAll('[data-ring]')) item.addEventListener('click', () => choose(item));

  // ---- the hand
  const hands = new Map(); // where each pointer is held: one drags, two stretch
  const release = id => {
    hands.delete(id);
    desk.classList.toggle('held', hands.size > 0);
  };
  desk.addEventListener('wheel', event => {
    event.preventDefault();
    const box = desk.getBoundingClientRect(), step = event.deltaMode === 1 ? 30 : 1;
    zoom(Math.exp(-Math.max(-300, Math.min(300, event.deltaY * step)) / 400), event.clientX - box.left, event.clientY - box.top);
  }, { passive: false });
  desk.addEventListener('pointerdown', event => {
    if (event.button) return;
    hands.set(event.pointerId, { x: event.clientX, y: event.clientY });
    desk.classList.add('held');
  });
  addEventListener('pointermove', event => {
    const old = hands.get(event.pointerId);
    if (!old) return;
    if (!event.buttons) return release(event.pointerId); // let go outside the window
    const now = { x: event.clientX, y: event.clientY };
    hands.set(event.pointerId, now);
    const other = [...hands.values()].find(hand => hand !== now);
    if (other) {
      const box = desk.getBoundingClientRect(), far = hand => Math.max(1, Math.hypot(hand.x - other.x, hand.y - other.y));
      return zoom(far(now) / far(old), other.x - box.left, other.y - box.top);
    }
    view.x -= (now.x - old.x) / view.k;
    view.y -= (now.y - old.y) / view.k;
    show();
  });
  for (const end of ['pointerup', 'pointercancel']) addEventListener(end, event => release(event.pointerId));
  desk.addEventListener('keydown', event => {
    const w = desk.clientWidth / 2, h = desk.clientHeight / 2, step = 60 / view.k;
    const does = {
      '+': () => zoom(1.5, w, h), '=': () => zoom(1.5, w, h), '-': () => zoom(1 / 1.5, w, h), '0': fitPlan,
      ArrowLeft: () => { view.x -= step; show(); }, ArrowRight: () => { view.x += step; show(); },
      ArrowUp: () => { view.y -= step; show(); }, ArrowDown: () => { view.y += step; show(); },
    }[event.key];
    if (!does) return;
    event.preventDefault();
    does();
  });

  // ---- switches
  at('plan-seen').addEventListener('click', fitPlan);
  at('sheet-seen').addEventListener('click', () => fit(0, 0, width, height));
  at('older-shown').addEventListener('change', event => sheet.classList.toggle('alone', !event.target.checked));
  at('coloured').addEventListener('change', event => sheet.classList.toggle('coloured', event.target.checked));
  at('labelled').addEventListener('change', label);
  addEventListener('resize', show);
  fitPlan();
  settle();
})();
