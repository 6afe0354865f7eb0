// Requests of Node's fetch, whose bodies may come in chunks, on the database `db` at the port that is given. Prints one line for each.
const db = `http://127.0.0.1:${process.argv[2]}/db`;
const chunks = new ReadableStream({
  start(controller) {
    for (const piece of ['{"docs":[{"_id":', '"n1"},{"_id":"n2"}]}']) controller.enqueue(new TextEncoder().encode(piece));
    controller.close();
  },
});
const headers = { "content-type": "application/json" };
const bulk = await fetch(`${db}/_bulk_docs`, { method: "POST", headers, body: chunks, duplex: "half" });
console.log("bulk", bulk.status, (await bulk.json()).length);
const head = await fetch(`${db}/n1`, { method: "HEAD" });
console.log("head", head.status, head.headers.get("etag").startsWith('"1-'));
const absent = await fetch(`${db}/n3`);
console.log("absent", absent.status, (await absent.json()).reason);
