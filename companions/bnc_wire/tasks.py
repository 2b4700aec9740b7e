"""Tasks that end together."""

import asyncio
from collections.abc import Coroutine
from typing import Any, TypeVar

Result = TypeVar("Result")


async def first_ended(*calls: Coroutine[Any, Any, Result]) -> Result:
    """Runs calls side by side until one ends, ends the others, and answers what that one did, or raises what it raised."""
    tasks = [asyncio.ensure_future(it) for it in calls]
    try:
        done, _ = await asyncio.wait(tasks, return_when=asyncio.FIRST_COMPLETED)
        return next(it for it in tasks if it in done).result()
    finally:
        for task in tasks:
            task.cancel()
        await asyncio.gather(*tasks, return_exceptions=True)
