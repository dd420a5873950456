// The server's pages of lines, read into values. Numbers of scores stay the texts that the server printed.

/** The lines of the progress page. */
export function progressOf(page) {
  return linesOf(page).map((line) => {
    const [topic, ...numbers] = line.split(" ");
    const [pool, relevant, lower, leases] = numbers.map(Number);
    return { topic, pool, relevant, lower, leases };
  });
}

/** The lines of the page of disagreements. */
export function disagreementsOf(page) {
  return linesOf(page).map((line) => {
    const [topic, docno] = line.split(" ");
    return { topic, docno };
  });
}

/** Score lines: for each run and each topic its values by measure, all in the order of the page. */
export function scoresOf(page) {
  const runs = new Map();
  for (const line of linesOf(page)) {
    const [run, topic, measure, value] = line.split("\t");
    const topics = valueOf(runs, run);
    valueOf(topics, topic).set(measure, value);
  }
  return runs;
}

/** How many lines a page has. */
export function countOf(page) {
  return linesOf(page).length;
}

function linesOf(page) {
  return page.split("\n").filter((line) => line !== "");
}

function valueOf(map, key) {
  if (!map.has(key)) {
    map.set(key, new Map());
  }
  return map.get(key);
}
