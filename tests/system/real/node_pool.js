// Thirty queries of node-pg over a pool of five connections, in another order each time: node_pool.js
"use strict";

const { Pool } = require("pg");

const pool = new Pool({ host: process.env.PGHOST, port: process.env.PGPORT, user: "postgres", database: "postgres", max: 5 });

async function work(number) {
  const client = await pool.connect();
  try {
    await client.query("BEGIN");
    const named = await client.query({ name: "sum", text: "SELECT $1::int + $2::int AS sum", values: [number, 1] });
    await client.query("SAVEPOINT one");
    const error = await client.query("SELECT 1 / $1::int AS quotient", [number]).then((it) => it.rows[0].quotient, (it) => it.code);
    await client.query("ROLLBACK TO SAVEPOINT one");
    await client.query("COMMIT");
    return [number, named.rows[0].sum, error];
  } finally {
    client.release();
  }
}

async function main() {
  const numbers = [...Array(30).keys()];
  numbers.sort(() => Math.random() - 0.5);
  const answers = await Promise.all(numbers.map(work));
  answers.sort((one, other) => one[0] - other[0]);
  console.log(JSON.stringify(answers));
  await pool.end();
}

main();
