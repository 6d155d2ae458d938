"""A terminal and a host over connections that break: what is typed comes to the host once and in order, and so to the disk."""
import asyncio
import tempfile

from sulgrevad.aio import Session, serve

LINES = "".join(f"line {number}\n" for number in range(100))


async def main(address):
    connections, written = [], []
    host = asyncio.create_task(serve({"notes": ""}, address, lambda name, text: written.append(text)))

    async def connect():
        connections.append(await asyncio.open_unix_connection(address))
        return connections[-1]

    async with Session(connect) as session:
        notes = await session.open("notes")
        for number, line in enumerate(LINES.splitlines(keepends=True)):
            notes.insert(len(notes), line)
            if number in (30, 60):
                connections[-1][1].transport.abort()  # it breaks, and what is on the way is lost
                await notes.write()
        await notes.write()
    print(f"{len(connections)} connections, {len(written)} writes")
    print(written[-1] == LINES, await host == {"notes": LINES})


with tempfile.TemporaryDirectory() as folder:
    asyncio.run(main(f"{folder}/socket"))
