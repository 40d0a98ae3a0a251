'use strict';
// Drives the page as a person would, and writes what it saw: a line for each thing tried.
addEventListener('load', async () => {
  const lines = [], at = id => document.getElementById(id);
  const desk = at('desk'), sheet = desk.querySelector('svg');
  const rest = () => new Promise(done => setTimeout(done, 400));
  const say = (what, well) => lines.push(`${well ? 'ok' : 'failed'} ${what}`);
  const matrix = () => at('moved').getScreenCTM(); // from millimetres to the screen, once the hand rests
  const middle = element => { const r = element.getBoundingClientRect(); return { x: r.x + r.width / 2, y: r.y + r.height / 2 }; };
  const pointer = (type, x, y, on, pointerId = 1) =>
    on.dispatchEvent(new PointerEvent(type, { pointerId, clientX: x, clientY: y, button: 0, buttons: type === 'pointerup' ? 0 : 1, bubbles: true }));
  const press = id => at(id).click();
  const near = (p, q) => Math.hypot(p.x - q.x, p.y - q.y) < 3;
  try {
    await rest();
    const first = matrix();
    const place = { x: 300, y: 200 }, before = new DOMPoint(place.x, place.y).matrixTransform(first.inverse());
    desk.dispatchEvent(new WheelEvent('wheel', { deltaY: -300, clientX: 300, clientY: 200, bubbles: true, cancelable: true }));
    await rest();
    say('the wheel zooms in', matrix().a > first.a * 1.5);
    say('the point under the wheel stays', near(before.matrixTransform(matrix()), place));
    const held = matrix();
    pointer('pointerdown', 300, 300, desk); pointer('pointermove', 360, 340, window); pointer('pointerup', 360, 340, window);
    await rest();
    say('dragging moves', Math.abs(matrix().e - held.e - 60) < 1 && Math.abs(matrix().f - held.f - 40) < 1 && matrix().a === held.a);
    pointer('pointermove', 500, 500, window);
    await rest();
    say('and ends', Math.abs(matrix().e - held.e - 60) < 1);
    pointer('pointerdown', 300, 300, desk); pointer('pointerdown', 400, 300, desk, 2);
    pointer('pointermove', 500, 300, window, 2); pointer('pointerup', 300, 300, window); pointer('pointerup', 500, 300, window, 2);
    await rest();
    say('two fingers stretch', Math.abs(matrix().a / held.a - 2) < 0.01);
    press('sheet-seen');
    await rest();
    say('the whole sheet is seen', sheet.querySelector('rect').getBoundingClientRect().height <= desk.clientHeight + 1);
    const lists = document.querySelectorAll('aside ol');
    say('the lost come first', lists.length === 2 && lists[0].className === 'lost' && lists[0].textContent.includes('gone'));
    const red = getComputedStyle(lists[0].querySelector('.note')).color === 'rgb(176, 0, 32)';
    say('in red, and counted', red && document.querySelector('aside h2').textContent === '1 finding with no vertex');
    const item = document.querySelectorAll('[data-ring]')[1], ring = at('ring' + item.dataset.ring);
    item.click();
    await rest();
    say('a click shows the place', near(middle(ring.querySelector('circle')), middle(desk)));
    say('and marks it', ring.classList.contains('chosen') && item.classList.contains('chosen') && document.querySelectorAll('#findings .chosen').length === 2);
    press('labelled');
    await rest();
    say('points are labelled', [...at('labels').children].some(text => text.textContent === '2,2,1') && at('labels').children.length < 800);
    press('labelled');
    say('and no longer', at('labels').children.length === 0);
    const face = sheet.querySelector('#faces .l1'), plain = getComputedStyle(face).fill;
    press('coloured');
    say('colours by level', getComputedStyle(face).fill !== plain);
    press('older-shown');
    say('the older plan is hidden', getComputedStyle(at('older')).display === 'none');
    press('plan-seen');
    await rest();
    say('the whole plan is seen', at('faces').getBoundingClientRect().height <= desk.clientHeight);
  } catch (error) {
    say(error, false);
  }
  const told = document.createElement('pre');
  told.id = 'driven';
  told.textContent = lines.join('\n');
  document.body.append(told);
});
