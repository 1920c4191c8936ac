/** Filters, and the pages that follow one another. */
import type { AccountFilter, Page, PageFilter, QueryPage } from "./records.js";
export declare function limitOf(asked: PageFilter): number;
export declare function ofAccount(asked: AccountFilter): AccountFilter & {
    limit: number;
    flags: number;
};
/** The items of a page, and of those after it. */
export declare function allOf<T extends {
    timestamp: bigint;
}>(asked: AccountFilter, pageOf: (asked: AccountFilter) => Promise<Page<T>>): AsyncGenerator<T, void, undefined>;
/** The items of a page, and of all pages after it. */
export declare function allPages<T, Asked extends PageFilter>(asked: Asked, pageOf: (asked: Asked) => Promise<QueryPage<T>>): AsyncGenerator<T, void, undefined>;
