"""An asyncio worker: it takes jobs from queue 3, and tells the end of each in queue 4, until it gets a SIGTERM.

usage: worker.py ADDRESS
"""
import asyncio
import signal
import sys

from rendezvous import aio


async def work(address):
    """Ends behind the job that it has, if it has one; no job is lost."""
    async with aio.Session(address) as session:
        jobs = session.items(3)
        asyncio.get_running_loop().add_signal_handler(signal.SIGTERM, jobs.stop)
        async for job in jobs:
            await session.put(4, f"{job} is done")
    print("the worker has ended")


asyncio.run(work(sys.argv[1]))
