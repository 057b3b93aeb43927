"""The store whose calls are coroutines."""

from __future__ import annotations

import asyncio
import os
import unittest
from typing import Any, Awaitable, Callable

import confstore
from confstore import AsyncStore, Store

from .places import StoreTest


class Awaited(StoreTest):
    def run_with(self, task: Callable[[AsyncStore], Awaitable[Any]], **more: Any) -> Any:
        """What a coroutine of an open store returns."""

        async def run() -> Any:
            async with AsyncStore(self.folder, **more) as store:
                return await task(store)

        return asyncio.run(asyncio.wait_for(run(), 60))

    def test_calls(self) -> None:
        async def task(store: AsyncStore) -> Any:
            self.assertEqual(await store.import_text("a", "k: [x]"), 1)
            self.assertEqual(await store.set("a", "/k/-", "y"), 2)
            self.assertEqual(await store.put("b", {}), 3)
            self.assertEqual((await store.get("a"), await store.get("a", "/k/1")), ({"k": ["x", "y"]}, "y"))
            self.assertEqual((await store.has("b"), await store.has("c"), await store.has("C")), (True, False, False))
            self.assertEqual((await store.get("c", default=5), await store.names()), (5, ["a", "b"]))
            async with store.batch() as batch:
                batch.delete("b")
                batch.set("a", "/k/0", "z")
            self.assertEqual((batch.count, await store.export("a")), (4, "k:\n  - z\n  - \"y\"\n"))
            with self.assertRaises(confstore.NoConfig) as caught:
                await store.delete("b")
            self.assertEqual(caught.exception.name, "b")
            await store.update({"c": "x", "d": "x"})
            self.assertEqual(await store.names(), ["a", "c", "d"])
            await store.clear()
            await store.clear()
            return await store.checkpoint()

        self.assertEqual(self.run_with(task), 6)
        with self.store() as store:
            self.assertEqual(store.names(), [])

    def test_what_is_awaited_at_once_is_sent_at_once(self) -> None:
        body = "for _ in range(100): heard()\n"
        body += "for number in range(100): say(b'---\\nok: \"%d\"\\n...\\n' % (number + 1))\nsys.stdin.buffer.read()\n"

        async def task(store: AsyncStore) -> Any:
            return await asyncio.gather(*(store.set("a", "", "x") for _ in range(100)))

        self.assertEqual(self.run_with(task, program=self.program(body)), list(range(1, 101)))

    def test_cancelled_calls(self) -> None:
        async def task(store: AsyncStore) -> Any:
            await store.put("a", {})
            calls = [asyncio.ensure_future(store.set("a", f"/k{number}", f"v{number}")) for number in range(200)]
            await asyncio.sleep(0)
            for call in calls[::3]:
                call.cancel()
            ended = await asyncio.gather(*calls, return_exceptions=True)
            tree = await store.get("a")
            assert isinstance(tree, dict)
            for number, count in enumerate(ended):
                if number % 3:
                    self.assertIsInstance(count, int)
                    self.assertEqual(tree[f"k{number}"], f"v{number}")
                else:
                    self.assertIsInstance(count, asyncio.CancelledError)
            reads = [asyncio.ensure_future(store.get("a", f"/k{number}")) for number in range(1, 200, 3)]
            await asyncio.sleep(0)
            reads[0].cancel()
            found = await asyncio.gather(*reads, return_exceptions=True)
            self.assertEqual(found[1:], [f"v{number}" for number in range(4, 200, 3)])
            counts = [count for count in ended if isinstance(count, int)]
            return len(set(counts)) == len(counts), await store.checkpoint() == 1 + len(tree)

        self.assertEqual(self.run_with(task), (True, True))

    def test_no_answer_in_time(self) -> None:
        async def task(store: AsyncStore) -> Any:
            store._timeout = 0.2
            with self.assertRaises(confstore.TimedOut) as caught:
                await store.set("a", "", "x")
            return caught.exception.sent

        self.assertTrue(self.run_with(task, program=self.program("heard()\nsys.stdin.buffer.read()\n")))

    def test_the_end_of_the_session(self) -> None:
        async def task(store: AsyncStore) -> Any:
            calls = [store.set("a", "", "x") for _ in range(10)]
            return await asyncio.gather(*calls, return_exceptions=True)

        ends = self.run_with(task, program=self.program("heard()\nos.kill(os.getpid(), signal.SIGKILL)\n"))
        self.assertEqual({type(end) for end in ends}, {confstore.SessionEnded})
        self.assertEqual({end.status for end in ends}, {-9})

    def test_opening(self) -> None:
        with self.assertRaises(confstore.Closed):
            asyncio.run(AsyncStore(self.folder).names())
        with Store(self.folder), self.assertRaises(confstore.Locked):
            self.run_with(AsyncStore.names)
        with self.assertRaises(confstore.MissingFolder):
            asyncio.run(AsyncStore(os.path.join(self.top, "none")).open())

    def test_an_answer_that_is_none(self) -> None:
        async def task(store: AsyncStore) -> Any:
            with self.assertRaises(confstore.BadAnswer):
                await store.set("a", "", "x")
            with self.assertRaises(confstore.BadAnswer):
                await store.names()

        self.run_with(task, program=self.program("heard()\nsay(b'---\\nmoon\\n...\\n')\nsys.stdin.buffer.read()\n"))


if __name__ == "__main__":
    unittest.main()
