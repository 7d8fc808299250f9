// A cycle by node-mysql, and thirty connections of its pool at once; prints what `test_clients` expects.
const mysql = require("mysql");
const port = Number(process.argv[2]);

function asker(connection) {
  return (text, values) => new Promise(
    (resolve, reject) => connection.query(text, values, (fault, rows) => (fault ? reject(fault) : resolve(rows))));
}

async function cycle() {
  const connection = mysql.createConnection({ host: "127.0.0.1", port, user: "root", database: "db" });
  const ask = asker(connection);
  const xid = "X'6700','b',7";
  await ask(`XA START ${xid}`);
  await ask("PUT ?,?", ["k", Buffer.from([0, 10, 39, 255, 92])]);
  await ask(`XA END ${xid}`);
  await ask(`XA PREPARE ${xid}`);
  const [row] = await ask("XA RECOVER");
  console.log("listed", row.formatID, row.gtrid_length, row.bqual_length, row.data.toString("hex"));
  await ask(`XA COMMIT ${xid}`);
  console.log("value", (await ask("GET 'k'"))[0].value.toString("hex"));
  for (const text of ["XA END 'none'", "NONSENSE"]) {
    await ask(text).catch((refused) => console.log("refused", refused.errno));
  }
  await new Promise((resolve) => connection.beginTransaction(resolve));
  await ask("PUT 'l','local'");
  await new Promise((resolve) => connection.commit(resolve));
  console.log("local", (await ask("GET 'l'"))[0].value.toString("hex"));
  await new Promise(
    (resolve, reject) => connection.changeUser({ user: "root" }, (fault) => (fault ? reject(fault) : resolve())));
  const seen = await new Promise(
    (resolve, reject) => connection.statistics((fault, it) => (fault ? reject(fault) : resolve(it))));
  console.log("statistics", seen.threads);
  connection.end();
}

async function pool() {
  const them = mysql.createPool({ host: "127.0.0.1", port, user: "root", database: "db", connectionLimit: 30 });
  const taken = () =>
    new Promise((resolve, reject) => them.getConnection((fault, it) => (fault ? reject(fault) : resolve(it))));
  const connections = await Promise.all(Array.from({ length: 30 }, taken));
  const works = connections.map(async (connection, number) => {
    const ask = asker(connection);
    for (let turn = 0; turn < 5; turn++) {
      const xid = `'${number} ${turn}'`;
      for (const text of [`XA START ${xid}`, `PUT 'row ${number}','${turn}'`, `XA END ${xid}`, `XA PREPARE ${xid}`,
          `XA COMMIT ${xid}`]) {
        await ask(text);
      }
    }
    connection.release();
    return 1;
  });
  console.log("pool", (await Promise.all(works)).length);
  them.end();
}

cycle().then(pool).catch((fault) => {
  console.log("failed", fault);
  process.exit(1);
});
