'use strict';
// Runs the scripts of pages of steps, for tests/steps. Each line of standard input is a page: its
// scripts, and for some its elements. Each line of the output is what they give: the states after
// each number of events, and what a reader sees who goes through all steps.
const readline = require('node:readline');
const vm = require('node:vm');

// As much of a document as the page needs.
class Element {
  constructor(tag, id) {
    Object.assign(this, { tagName: tag.toUpperCase(), id: id || '', children: [], words: '' });
    Object.assign(this, { className: '', attributes: {}, heard: {}, scrollTop: 0, clientHeight: 100 });
    this.viewBox = { baseVal: { height: 500 } };
    this.classList = { add: (name) => { this.className += ` ${name}`; } };
  }

  get textContent() {
    return this.words + this.children.map((it) => it.textContent || it).join('');
  }

  set textContent(words) {
    this.words = String(words);
    this.children = [];
  }

  append(...children) {
    this.children.push(...children);
  }

  replaceChildren(...children) {
    this.words = '';
    this.children = children;
  }

  insertBefore(child, next) {
    const place = next ? this.children.indexOf(next) : this.children.length;
    if (place < 0) throw new Error('it is no child');
    this.children.splice(place, 0, child);
    made.set(child.id, child);
  }

  setAttribute(name, value) {
    this.attributes[name] = value;
  }

  all() {
    return [this, ...this.children.flatMap((it) => (it.all ? it.all() : []))];
  }

  querySelector(words) {
    const is = (it) => (words[0] === '.' ? it.className === words.slice(1)
      : it.tagName === words.toUpperCase());
    return this.all().find(is) || null;
  }

  addEventListener(name, act) {
    this.heard[name] = act;
  }

  of(tag) {
    return this.all().filter((it) => it.tagName === tag);
  }
}

let made;

// A page that is open at an address, with a clock that only counts.
function opened(page, hash) {
  made = new Map(page.ids.map((id) => [id, new Element(id === 'play' ? 'button' : 'div', id)]));
  made.get('run').textContent = page.run;
  made.get('play').textContent = 'Play';
  const drawing = new Element('svg');
  const [definitions, column] = [new Element('defs'), new Element('path')];
  definitions.append(new Element('path'));
  column.className = 'up';
  drawing.append(definitions, column);
  const told = { keys: {}, window: {}, clock: null, pause: 0, kept: 0 };
  const context = {
    document: {
      getElementById: (id) => made.get(id),
      querySelector: () => drawing,
      createElement: (tag) => new Element(tag),
      createElementNS: (_, tag) => new Element(tag),
      addEventListener: (name, act) => { told.keys[name] = act; }
    },
    window: { addEventListener: (name, act) => { told.window[name] = act; } },
    location: { hash },
    history: { replaceState: (_, __, hash) => { context.location.hash = hash; } },
    setInterval: (act, pause) => { told.clock = act; told.pause = pause; return 1; },
    clearInterval: () => { told.clock = null; }
  };
  vm.runInNewContext(page.steps + page.view, context);
  const press = (key, more) => told.keys.keydown({
    key, target: made.get('sites'), preventDefault: () => { told.kept += 1; }, ...more
  });
  return { told, context, press, drawing, click: (id) => made.get(id).heard.click() };
}

// What a reader sees.
function seen(view) {
  const cards = made.get('sites').children.map((card) => ({
    id: card.id,
    kinds: card.className.split(' '),
    name: card.of('H2')[0].textContent,
    mode: card.of('P')[0].textContent,
    rows: card.of('TR').map((row) => row.children.map((it) => it.textContent)),
    titles: card.of('TR').map((row) => row.title || ''),
    bags: card.of('SPAN').map((it) => `${it.className}: ${it.textContent}`),
    head: card.of('H3').map((it) => it.textContent),
    colours: card.of('LI').map((it) => it.className),
    tags: card.children.map((it) => it.tagName),
    classes: card.children.map((it) => it.className),
    marked: card.of('TD').map((it) => it.className === 'new'),
    way: card.of('LI').map((it) => it.textContent)
  }));
  const text = (id) => made.get(id).textContent;
  return {
    cards, says: text('says'), prints: text('prints'), count: text('count'),
    hash: view.context.location.hash, cursor: { ...made.get('cursor').attributes },
    veil: { ...made.get('veil').attributes }, scroll: made.get('picture').scrollTop,
    slider: [made.get('at').value, made.get('at').max], play: text('play'),
    order: view.drawing.children.map((it) => it.id || it.className || it.tagName),
    disabled: ['first', 'back', 'next', 'last'].filter((id) => made.get(id).disabled)
  };
}

// All steps, forth by each way in turn, and back.
function journey(page, count) {
  const view = opened(page, '');
  const forth = [seen(view)];
  const ways = [() => view.press('ArrowRight'), () => view.click('next')];
  for (let step = 1; step <= count; step += 1) {
    ways[step % 2]();
    forth.push(seen(view));
  }
  const back = [];
  const returns = [() => view.press('ArrowLeft'), () => view.click('back')];
  for (let step = count; step > 0; step -= 1) {
    returns[step % 2]();
    back.unshift(seen(view));
  }
  const told = { forth, back: [...back, forth[count]], played: playedFrom(view, count) };
  told.others = others(view, count);
  // Pages that are opened at an address, as from a link.
  const addresses = ['#1', `#${count}`, '#x', `#${count + 9}`];
  told.linked = addresses.map((address) => seen(opened(page, address)).count);
  return told;
}

// What is seen while it plays, to its end.
function playedFrom(view, count) {
  const all = [];
  view.click('play');
  while (view.told.clock && all.length <= count) {
    view.told.clock();
    all.push(seen(view).count);
  }
  return all;
}

// The other ways to a step.
function others(view, count) {
  const all = [];
  const note = () => all.push(seen(view).count);
  view.press('Home'); note();
  view.press('End'); note();
  view.click('first'); note();
  view.click('last'); note();
  made.get('at').value = '1'; made.get('at').heard.input(); note();
  view.context.location.hash = `#${count}`; view.told.window.hashchange(); note();
  view.context.location.hash = '#-7'; view.told.window.hashchange(); note();
  for (const hash of ['#1', '#', '#x', '#1', '', `#${count + 9}`, '#1', '#0']) {
    view.context.location.hash = hash; view.told.window.hashchange(); note();
  }
  view.press(' '); if (view.told.clock) view.told.clock(); view.press(' '); note();
  all.push(String(view.told.clock));
  // Keys that are the browser's, or a button's, and none of the page.
  view.press('Home');
  view.press('ArrowRight', { altKey: true }); note();
  view.press('ArrowRight', { ctrlKey: true }); note();
  view.press('ArrowRight', { metaKey: true }); note();
  view.press('PageDown'); note();
  view.press(' ', { target: made.get('play') }); all.push(String(view.told.clock));
  // A key that the page takes isn't the browser's too.
  const before = view.told.kept;
  view.press('PageDown');
  view.press('ArrowRight', { altKey: true });
  all.push(`${view.told.kept - before} kept`);
  for (const key of ['ArrowRight', 'ArrowLeft', 'End', 'Home']) view.press(key);
  all.push(`${view.told.kept - before} kept`);
  view.press(' ');
  all.push(`${made.get('play').textContent}, ${view.told.clock ? view.told.pause : 'no'} ms`);
  view.press(' ');
  all.push(made.get('play').textContent);
  return all;
}

function answerTo(page) {
  const context = { run: JSON.parse(page.run), told: {} };
  vm.runInNewContext(`${page.steps}
    told.states = run.events.map((_, place) => stateAfter(run, place + 1));
    told.states.unshift(stateAfter(run, 0));`, context);
  const count = context.run.events.length;
  return { states: context.told.states, journey: page.ids ? journey(page, count) : null };
}

readline.createInterface({ input: process.stdin }).on('line', (line) => {
  process.stdout.write(`${JSON.stringify(answerTo(JSON.parse(line)))}\n`);
});
