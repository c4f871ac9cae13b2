// What a reader sees of a page of steps in a browser, for tests/steps: put at the end of a copy of
// the page, it clicks through all steps, forth and back, and leaves what it saw in an element.
(() => {
  const part = (id) => document.getElementById(id);
  const of = (card, tag) => [...card.getElementsByTagName(tag)];
  const card = (it) => ({
    id: it.id, kinds: it.className.split(' '), name: of(it, 'h2')[0].textContent,
    mode: of(it, 'p')[0].textContent,
    rows: of(it, 'tr').map((row) => [...row.children].map((cell) => cell.textContent)),
    titles: of(it, 'tr').map((row) => row.title),
    bags: of(it, 'span').map((bag) => `${bag.className}: ${bag.textContent}`),
    head: of(it, 'h3').map((head) => head.textContent),
    colours: of(it, 'li').map((sent) => sent.className),
    tags: [...it.children].map((child) => child.tagName),
    classes: [...it.children].map((child) => child.className),
    marked: of(it, 'td').map((cell) => cell.className === 'new'),
    way: of(it, 'li').map((sent) => sent.textContent),
  });
  const box = (it) => it.getBoundingClientRect();
  // The band of the step's row lies in what is seen of the picture; no card is out of the window.
  const isInSight = () => {
    const [band, frame] = [box(part('cursor')), box(part('picture'))];
    return band.height === 0 || (band.top >= frame.top - 1 && band.bottom <= frame.bottom + 1);
  };
  const seen = () => ({
    cards: [...part('sites').children].map(card), says: part('says').textContent,
    prints: part('prints').textContent, count: part('count').textContent,
    disabled: ['first', 'back', 'next', 'last'].filter((id) => part(id).disabled),
    inSight: isInSight(),
    fits: [...part('sites').children].every((it) => box(it).right <= window.innerWidth + 1),
  });
  const walked = (id) => {
    const all = [seen()];
    while (!part(id).disabled) {
      part(id).click();
      all.push(seen());
    }
    return all;
  };
  const told = document.createElement('pre');
  told.id = 'told';
  told.textContent = JSON.stringify({ forth: walked('next'), back: walked('back').reverse() });
  document.body.append(told);
})();
