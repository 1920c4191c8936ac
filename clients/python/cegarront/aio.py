"""A tenant's ledger, for programs on asyncio: `Ledger` with `await`."""

from __future__ import annotations

import ssl
from types import TracebackType
from typing import AsyncIterator, Awaitable, Callable, Iterable, Iterator, Optional, Tuple, Type
from typing import TypeVar

from . import calls
from .aio_transport import AsyncTransport
from .errors import LedgerError
from .ledger import check_options
from .records import (
    MAX_EVENTS,
    Account,
    AccountFilter,
    Balance,
    Entry,
    Hold,
    OpenHold,
    Page,
    PageFilter,
    QueryFilter,
    QueryPage,
    Transfer,
)
from .results import Results
from .transport import address_in

R = TypeVar("R")
Asked = TypeVar("Asked", bound=PageFilter)
Dated = TypeVar("Dated", Transfer, Balance)


class AsyncLedger:
    """A tenant's ledger, as `Ledger` has it, for the tasks of one event loop.

    Cancelling a call resets its connection. As after any call without an answer, its batch may be
    booked all the same.
    """

    def __init__(
        self,
        url: str,
        key: str,
        *,
        timeout: float = 10.0,
        deadline: float = 60.0,
        connections: int = 4,
        max_idle: float = 60,
        context: Optional[ssl.SSLContext] = None,
    ) -> None:
        check_options(key, timeout, deadline, connections, max_idle)
        self._url = url
        self._transport = AsyncTransport(
            address_in(url), key, timeout, deadline, connections, max_idle, context
        )

    def __repr__(self) -> str:
        return f"AsyncLedger({self._url!r})"

    async def __aenter__(self) -> AsyncLedger:
        return self

    async def __aexit__(
        self,
        kind: Optional[Type[BaseException]],
        error: Optional[BaseException],
        trace: Optional[TracebackType],
    ) -> None:
        self.close()

    def close(self) -> None:
        """Closes the connections that are idle. A later call opens new ones."""
        self._transport.close()

    async def create_accounts(self, accounts: Iterable[Account]) -> Results:
        """Opens accounts, as one batch of at most 1,000."""
        return await self._run(calls.create_accounts(accounts))

    async def create_transfers(self, transfers: Iterable[Transfer]) -> Results:
        """Sends transfers, posts and voids, as one batch of at most 1,000."""
        return await self._run(calls.create_transfers(transfers))

    async def lint_accounts(self, accounts: Iterable[Account]) -> int:
        """Has the service judge accounts, and books nothing. How many there are."""
        return await self._run(calls.lint_accounts(accounts))

    async def lint_transfers(self, transfers: Iterable[Transfer]) -> int:
        """Has the service judge transfers, and books nothing. How many there are."""
        return await self._run(calls.lint_transfers(transfers))

    async def lookup_accounts(self, ids: Iterable[int]) -> Page[Account]:
        """The accounts that exist among these ids, in the order asked."""
        return await self._run(calls.lookup_accounts(ids))

    async def lookup_transfers(self, ids: Iterable[int]) -> Page[Transfer]:
        """The transfers that exist among these ids, in the order asked."""
        return await self._run(calls.lookup_transfers(ids))

    async def get_account_transfers(self, asked: AccountFilter) -> Page[Transfer]:
        """A page of an account's transfers."""
        return await self._run(calls.get_account_transfers(asked))

    async def get_account_balances(self, asked: AccountFilter) -> Page[Balance]:
        """A page of an account's balances after its transfers."""
        return await self._run(calls.get_account_balances(asked))

    async def query_accounts(self, asked: QueryFilter) -> QueryPage[Account]:
        """A page of the accounts that the filter asks for."""
        return await self._run(calls.query_accounts(asked))

    async def query_transfers(self, asked: QueryFilter) -> QueryPage[Transfer]:
        """A page of the transfers that the filter asks for."""
        return await self._run(calls.query_transfers(asked))

    async def lookup_pending(self, ids: Iterable[int]) -> Page[Hold]:
        """The state of the pending transfers with these ids."""
        return await self._run(calls.lookup_pending(ids))

    async def open_pending(self, asked: PageFilter = PageFilter()) -> QueryPage[OpenHold]:
        """A page of the pending transfers that are open."""
        return await self._run(calls.open_pending(asked))

    def iter_account_transfers(self, asked: AccountFilter) -> AsyncIterator[Transfer]:
        """All transfers that the filter asks for, page by page."""
        return _all_of(asked, self.get_account_transfers)

    def iter_account_balances(self, asked: AccountFilter) -> AsyncIterator[Balance]:
        """All balances that the filter asks for, page by page."""
        return _all_of(asked, self.get_account_balances)

    def iter_accounts(self, asked: QueryFilter = QueryFilter()) -> AsyncIterator[Account]:
        """All accounts that the filter asks for, page by page."""
        return _all_pages(asked, self.query_accounts)

    def iter_transfers(self, asked: QueryFilter = QueryFilter()) -> AsyncIterator[Transfer]:
        """All transfers that the filter asks for, page by page."""
        return _all_pages(asked, self.query_transfers)

    def iter_open_pending(self, asked: PageFilter = PageFilter()) -> AsyncIterator[OpenHold]:
        """All pending transfers that are open, page by page."""
        return _all_pages(asked, self.open_pending)

    async def follow(
        self, number: int = 0, limit: int = MAX_EVENTS
    ) -> AsyncIterator[Tuple[Tuple[Transfer, ...], int]]:
        """The transfers accepted since `number`, as `Ledger.follow` returns them: each page with
        the number to store together with your own work."""
        while True:
            page = await self.query_transfers(QueryFilter(timestamp_min=number, limit=limit))
            later = calls.number_after(number, page)
            if later > number:
                yield page.items, later
            if page.next == 0:
                return
            number = later

    async def statement(self, account_id: int) -> Iterator[Entry]:
        """All entries of an account, the oldest first, fetched whole."""
        return await self._run(calls.statement(account_id))

    async def health(self) -> bool:
        """Whether the service serves, asked once."""
        return calls.serves(await self._transport.ask_once(calls.HEALTH))

    async def _run(self, call: calls.Call[R]) -> R:
        """Sends the messages of a call, all of them within one deadline."""
        until = self._transport.deadline()
        try:
            message = next(call)
            while True:
                try:
                    reply = await self._transport.ask(message, until)
                except LedgerError as error:
                    message = call.throw(error)
                else:
                    message = call.send(reply)
        except StopIteration as done:
            answer: R = done.value
            return answer


async def _all_of(
    asked: Optional[AccountFilter], page_of: Callable[[AccountFilter], Awaitable[Page[Dated]]]
) -> AsyncIterator[Dated]:
    """The items of a page, and of those after it."""
    while asked is not None:
        page = await page_of(asked)
        for each in page:
            yield each
        asked = calls.next_page(asked, page)


async def _all_pages(
    asked: Optional[Asked], page_of: Callable[[Asked], Awaitable[QueryPage[R]]]
) -> AsyncIterator[R]:
    """The items of a page, and of all pages after it."""
    while asked is not None:
        page = await page_of(asked)
        for each in page:
            yield each
        asked = calls.next_query(asked, page)
