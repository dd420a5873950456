// What `campaign history RUN` and `campaign export` print, read into values, and two releases compared. A map keeps its
// text, and is compared as a whole number of 0.0001.

const NAME = "[A-Za-z0-9._-]{1,32}";
const MAP = "[01]\\.[0-9]{4}";
const HISTORY_LINE = new RegExp(`^(${NAME})\\t([0-9]+)\\t(${MAP})$`);
const EXPORT_LINE = new RegExp(`^(${NAME}),(${NAME}),(${NAME}),([0-9]+),(${MAP})$`);
const EXPORT_HEAD = "campaign,run,group,topics,map";

/** The rows of a history, a release each; or the first line that is none, by number. */
export function historyOf(text) {
  const rows = [];
  for (const [place, line] of linesOf(text).entries()) {
    const found = HISTORY_LINE.exec(line);
    if (found === null) {
      return { fault: place + 1 };
    }
    const [, release, topics, map] = found;
    rows.push({ release, topics, map });
  }
  return { rows };
}

/** The releases of an export, by name: of each its runs by name; or the first line that is none, by number. */
export function releasesOf(text) {
  const [head, ...lines] = linesOf(text);
  const releases = new Map();
  if (head !== EXPORT_HEAD) {
    return { fault: 1 };
  }
  for (const [place, line] of lines.entries()) {
    const found = EXPORT_LINE.exec(line);
    if (found === null) {
      return { fault: place + 2 };
    }
    const [, release, run, group, topics, map] = found;
    if (!releases.has(release)) {
      releases.set(release, new Map());
    }
    releases.get(release).set(run, { group, topics, map });
  }
  return { releases };
}

/**
 * The runs that two releases have, from the best one in the first and from the best one in the second, and of each two
 * of them whether both releases order them alike. Runs that a release has equal are in the order of the other one, so
 * that two lines from the one order to the other cross where the two are discordant, and only there.
 */
export function comparisonOf(first, second) {
  const common = [...first.keys()].filter((run) => second.has(run));
  const runs = common.map((run) => ({ run, first: first.get(run).map, second: second.get(run).map }));
  const by = (one, other) => (a, b) => unitsOf(b[one]) - unitsOf(a[one]) || unitsOf(b[other]) - unitsOf(a[other]);
  const pairs = { concordant: 0, discordant: 0, tied: 0 };
  for (const [place, run] of runs.entries()) {
    for (const other of runs.slice(place + 1)) {
      pairs[kindOf(run, other)] += 1;
    }
  }
  return { before: runs.toSorted(by("first", "second")), after: runs.toSorted(by("second", "first")), pairs };
}

function kindOf(run, other) {
  const change = (unitsOf(run.first) - unitsOf(other.first)) * (unitsOf(run.second) - unitsOf(other.second));
  return change > 0 ? "concordant" : change < 0 ? "discordant" : "tied";
}

/** A map in units of 0.0001. */
export function unitsOf(map) {
  return Number(map.replace(".", ""));
}

function linesOf(text) {
  return text.split(/\r?\n/).filter((line) => line !== "");
}
