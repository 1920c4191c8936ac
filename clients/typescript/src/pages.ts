/** Filters, and the pages that follow one another. */

import { FilterFlag, MAX_EVENTS, QueryFlag } from "./records.js";
import type { AccountFilter, Page, PageFilter, QueryPage } from "./records.js";

const BOTH_SIDES = FilterFlag.debits | FilterFlag.credits;

export function limitOf(asked: PageFilter): number {
  return asked.limit ?? MAX_EVENTS;
}

export function ofAccount(asked: AccountFilter): AccountFilter & { limit: number; flags: number } {
  return { ...asked, limit: limitOf(asked), flags: asked.flags ?? BOTH_SIDES };
}

/** The items of a page, and of those after it. */
export async function* allOf<T extends { timestamp: bigint }>(
  asked: AccountFilter,
  pageOf: (asked: AccountFilter) => Promise<Page<T>>,
): AsyncGenerator<T, void, undefined> {
  for (;;) {
    const { items } = await pageOf(asked);
    yield* items;
    if (items.length < limitOf(asked)) return;
    const last = items[items.length - 1].timestamp;
    if (((asked.flags ?? 0) & FilterFlag.newestFirst) === 0) {
      asked = { ...asked, timestampMin: last + 1n };
    } else if (last > 1n) {
      asked = { ...asked, timestampMax: last - 1n };
    } else {
      return; // A bound of 0 would be none.
    }
  }
}

/** The items of a page, and of all pages after it. */
export async function* allPages<T, Asked extends PageFilter>(
  asked: Asked,
  pageOf: (asked: Asked) => Promise<QueryPage<T>>,
): AsyncGenerator<T, void, undefined> {
  for (;;) {
    const { items, next } = await pageOf(asked);
    yield* items;
    if (next === 0n) return;
    const isNewestFirst = ((asked.flags ?? 0) & QueryFlag.newestFirst) !== 0;
    asked = { ...asked, [isNewestFirst ? "timestampMax" : "timestampMin"]: next };
  }
}
