// What the tab keeps while it is open, by name: a reload finds it again, and closing the tab forgets it.

const PREFIX = "campaign.";

/** The value under a name, or what is given for none. */
export function kept(name, none = null) {
  const text = sessionStorage.getItem(PREFIX + name);
  return text === null ? none : JSON.parse(text);
}

/** Keeps a value under a name. False where there is no room for it. */
export function keep(name, value) {
  try {
    sessionStorage.setItem(PREFIX + name, JSON.stringify(value));
    return true;
  } catch (error) {
    if (error.name === "QuotaExceededError") {
      return false;
    }
    throw error;
  }
}

export function drop(name) {
  sessionStorage.removeItem(PREFIX + name);
}

/** Forgets all that the tab keeps. */
export function dropAll() {
  for (const name of Object.keys(sessionStorage)) {
    if (name.startsWith(PREFIX)) {
      sessionStorage.removeItem(name);
    }
  }
}
