"""A tenant's ledger, for programs with threads."""

from __future__ import annotations

import re
import ssl
from types import TracebackType
from typing import Callable, Iterable, Iterator, Optional, Tuple, Type, TypeVar

from . import calls
from .blocking import Transport
from .errors import LedgerError
from .records import (
    MAX_EVENTS,
    Account,
    AccountFilter,
    Balance,
    Entry,
    Hold,
    OpenHold,
    Page,
    PageFilter,
    QueryFilter,
    QueryPage,
    Transfer,
)
from .results import Results
from .transport import address_in

R = TypeVar("R")
Asked = TypeVar("Asked", bound=PageFilter)
Dated = TypeVar("Dated", Transfer, Balance)


class Ledger:
    """A tenant's ledger, at an address and with the tenant's key (64 hexadecimal digits).

    Threads may share it; processes may not. `deadline` is how many seconds a whole call may take.
    It waits for its answer until then, as long as the connection stands. It resends the same bytes,
    after growing pauses, if the connection was cut or refused, if the service is `unavailable`, and
    if it replies `busy` or `too_much`. That never books an event twice. `timeout` is how many
    seconds connecting may take, and after about how many a vanished peer counts as a cut.

    At most `connections` are open at once, and one that was idle for `max_idle` seconds is not used
    again. The service lets go of an idle connection, so keep this below what it allows; with 0 each
    message has a connection of its own. `context` is for an https address, of a proxy.

    Calls raise `Unanswered` where no answer came before the deadline, `Refused` with the refusal's
    name where the service refuses the request, `BadReply` where something else answers, and
    `TypeError` or `ValueError`, before anything is sent, for what cannot be sent.
    """

    def __init__(
        self,
        url: str,
        key: str,
        *,
        timeout: float = 10.0,
        deadline: float = 60.0,
        connections: int = 4,
        max_idle: float = 60,
        context: Optional[ssl.SSLContext] = None,
    ) -> None:
        check_options(key, timeout, deadline, connections, max_idle)
        self._url = url
        self._transport = Transport(
            address_in(url), key, timeout, deadline, connections, max_idle, context
        )

    def __repr__(self) -> str:
        return f"Ledger({self._url!r})"

    def __enter__(self) -> Ledger:
        return self

    def __exit__(
        self,
        kind: Optional[Type[BaseException]],
        error: Optional[BaseException],
        trace: Optional[TracebackType],
    ) -> None:
        self.close()

    def close(self) -> None:
        """Closes the connections that are idle. A later call opens new ones."""
        self._transport.close()

    def create_accounts(self, accounts: Iterable[Account]) -> Results:
        """Opens accounts, as one batch of at most 1,000, and answers a result for each."""
        return self._run(calls.create_accounts(accounts))

    def create_transfers(self, transfers: Iterable[Transfer]) -> Results:
        """Sends transfers, posts and voids, as one batch of at most 1,000, and answers a result for
        each. A batch of none moves the clock, so that holds which are due expire."""
        return self._run(calls.create_transfers(transfers))

    def lint_accounts(self, accounts: Iterable[Account]) -> int:
        """Has the service judge accounts as `create_accounts` sends them, and books nothing. How many
        there are. `Refused` says which field of which one is wrong."""
        return self._run(calls.lint_accounts(accounts))

    def lint_transfers(self, transfers: Iterable[Transfer]) -> int:
        """Has the service judge transfers as `create_transfers` sends them, and books nothing."""
        return self._run(calls.lint_transfers(transfers))

    def lookup_accounts(self, ids: Iterable[int]) -> Page[Account]:
        """The accounts with these ids that are there, at most 1,000, in the order asked.

        Balances are those at the ledger's clock: a hold that is due is among them until the next
        batch, or until the service releases it by itself, within seconds.
        """
        return self._run(calls.lookup_accounts(ids))

    def lookup_transfers(self, ids: Iterable[int]) -> Page[Transfer]:
        """The transfers with these ids that are there, at most 1,000, in the order asked. One that
        is not there may still be on its way, if its batch had no answer."""
        return self._run(calls.lookup_transfers(ids))

    def get_account_transfers(self, asked: AccountFilter) -> Page[Transfer]:
        """A page of an account's transfers. `Refused`: `no_account`."""
        return self._run(calls.get_account_transfers(asked))

    def get_account_balances(self, asked: AccountFilter) -> Page[Balance]:
        """A page of an account's balances after its transfers. `Refused`: `no_account`, or
        `no_history` for an account without the flag."""
        return self._run(calls.get_account_balances(asked))

    def iter_account_transfers(self, asked: AccountFilter) -> Iterator[Transfer]:
        """All transfers that the filter asks for. Pages of `limit` are fetched as they are needed,
        the first with the first transfer."""
        return _all_of(asked, self.get_account_transfers)

    def iter_account_balances(self, asked: AccountFilter) -> Iterator[Balance]:
        """All balances that the filter asks for, fetched in the same way."""
        return _all_of(asked, self.get_account_balances)

    def query_accounts(self, asked: QueryFilter) -> QueryPage[Account]:
        """A page of the accounts that the filter asks for, in the order in which they were opened.
        Balances are those at the ledger's clock, as of a look-up."""
        return self._run(calls.query_accounts(asked))

    def query_transfers(self, asked: QueryFilter) -> QueryPage[Transfer]:
        """A page of the transfers that the filter asks for, in the order in which they were
        accepted."""
        return self._run(calls.query_transfers(asked))

    def lookup_pending(self, ids: Iterable[int]) -> Page[Hold]:
        """What has become of the pending transfers with these ids, at most 1,000, in the order
        asked. What is no pending transfer is left out. A hold expires by the ledger's clock, as of
        a look-up."""
        return self._run(calls.lookup_pending(ids))

    def open_pending(self, asked: PageFilter = PageFilter()) -> QueryPage[OpenHold]:
        """A page of the pending transfers that are open, in the order in which they were
        accepted."""
        return self._run(calls.open_pending(asked))

    def iter_accounts(self, asked: QueryFilter = QueryFilter()) -> Iterator[Account]:
        """All accounts that the filter asks for. Pages are fetched as they are needed, and each has
        the balances of its own time."""
        return _all_pages(asked, self.query_accounts)

    def iter_transfers(self, asked: QueryFilter = QueryFilter()) -> Iterator[Transfer]:
        """All transfers that the filter asks for, fetched in the same way."""
        return _all_pages(asked, self.query_transfers)

    def iter_open_pending(self, asked: PageFilter = PageFilter()) -> Iterator[OpenHold]:
        """All pending transfers that are open, fetched in the same way."""
        return _all_pages(asked, self.open_pending)

    def follow(
        self, number: int = 0, limit: int = MAX_EVENTS
    ) -> Iterator[Tuple[Tuple[Transfer, ...], int]]:
        """The transfers accepted since `number`, each once and in order, in pages of at most
        `limit`. Each page has the next number to store. Start with 0.

            for transfers, number in ledger.follow(number):
                ...  # process them, and store the number: both or neither

        It ends where there is no more for now, and is called again later with the number that was
        kept last. Who keeps it together with what was done, in one step, loses and doubles nothing
        by a kill. A hold that expires is no transfer: its due time tells.

        `LedgerError` where the ledger's clock is behind the number. Then an older copy of its file
        was put back, entries may be others, and who follows it begins anew.
        """
        while True:
            page = self.query_transfers(QueryFilter(timestamp_min=number, limit=limit))
            later = calls.number_after(number, page)
            if later > number:
                yield page.items, later
            if page.next == 0:
                return
            number = later

    def statement(self, account_id: int) -> Iterator[Entry]:
        """All entries of an account, the oldest first. `Refused`: `no_account`.

        The whole statement is fetched by this call, some 100 bytes an entry; a long account is
        better read with `iter_account_transfers`. One that is cut is asked for again: it is told
        whole or not at all.
        """
        return self._run(calls.statement(account_id))

    def health(self) -> bool:
        """Whether the service serves; False where it is unavailable, as after a fault of its disk.

        It asks once, and the service looks at no key. `Unanswered` if nothing answers within
        `timeout` seconds.
        """
        return calls.serves(self._transport.ask_once(calls.HEALTH))

    def _run(self, call: calls.Call[R]) -> R:
        """Sends the messages of a call, all of them within one deadline."""
        until = self._transport.deadline()
        try:
            message = next(call)
            while True:
                try:
                    reply = self._transport.ask(message, until)
                except LedgerError as error:
                    message = call.throw(error)
                else:
                    message = call.send(reply)
        except StopIteration as done:
            answer: R = done.value
            return answer


def check_options(
    key: str, timeout: float, deadline: float, connections: int, max_idle: float
) -> None:
    """`ValueError` if an option is invalid."""
    if not re.fullmatch("[0-9A-Fa-f]{64}", key):
        raise ValueError("the key is not 64 hexadecimal digits")
    if timeout <= 0 or deadline <= 0 or connections < 1 or max_idle < 0:
        raise ValueError("timeout, deadline and connections are above 0, max_idle is not below")


def _all_of(
    asked: Optional[AccountFilter], page_of: Callable[[AccountFilter], Page[Dated]]
) -> Iterator[Dated]:
    """The items of a page, and of those after it."""
    while asked is not None:
        page = page_of(asked)
        yield from page
        asked = calls.next_page(asked, page)


def _all_pages(asked: Optional[Asked], page_of: Callable[[Asked], QueryPage[R]]) -> Iterator[R]:
    """The items of a page, and of all pages after it."""
    while asked is not None:
        page = page_of(asked)
        yield from page
        asked = calls.next_query(asked, page)
