// The configuration that page, collector and report share: which epoch it is, and under which terms its reports are made.

const WEEK = 604_800, FIRST_MONDAY = 345_600;           // seconds

/** The epoch of a moment in milliseconds: whole weeks since Monday, 5 January 1970, 0:00 UTC. */
export const epochAt = (now = Date.now()) => Math.floor((now / 1000 - FIRST_MONDAY) / WEEK);

/** The terms of an epoch: those of the last entry that has begun; undefined before the first. */
export const termsOf = (configuration, epoch) => configuration.terms.filter((terms) => terms.from_epoch <= epoch).at(-1);

/** The configuration at an address; an error if it isn't one. */
export async function configurationAt(address) {
  const answer = await fetch(address, { cache: "no-cache", credentials: "omit" });
  if (!answer.ok) throw new Error(`the configuration isn't there: ${answer.status}`);
  const found = await answer.json();
  const good = Array.isArray(found?.terms) && found.terms.every((terms) => Number.isInteger(terms.from_epoch) && Array.isArray(terms.layers)
    && terms.layers.length === terms.thresholds?.length);
  if (!good) throw new Error("the configuration isn't one");
  return found;
}
