"""The lock manager of this process, for tasks."""
import asyncio

from .. import in_process
from .service import Sleeper


class Session(Sleeper, in_process.Inside):
    """One transaction."""

    def abandon(self) -> bool:
        self._manager.cancel(self._seat)
        return True


class InProcess(in_process.InProcess):
    """The manager, for the tasks of one loop."""

    pause = staticmethod(asyncio.sleep)

    async def session(self, deadline: float) -> Session:
        session: Session = self.new(Session)
        return session
