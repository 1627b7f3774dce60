//! Speaks by tokio-postgres to the server at PGPORT of this machine, and prints what it hears.

use bytes::Bytes;
use futures_util::{future, pin_mut, SinkExt, StreamExt, TryStreamExt};
use tokio_postgres::types::Type;
use tokio_postgres::{AsyncMessage, Client, NoTls, SimpleQueryMessage};

type Result<T> = std::result::Result<T, Box<dyn std::error::Error>>;

/// Opens a session, whose notices and notifications are printed.
async fn connect() -> Result<Client> {
    let port = std::env::var("PGPORT")?;
    let config = format!("host=127.0.0.1 port={} user=postgres dbname=postgres", port);
    let (client, mut connection) = tokio_postgres::connect(&config, NoTls).await?;
    tokio::task::spawn_local(async move {
        while let Some(Ok(message)) = future::poll_fn(|it| connection.poll_message(it)).await {
            match message {
                AsyncMessage::Notice(notice) => println!("notice {}", notice.message()),
                AsyncMessage::Notification(note) => {
                    println!("note {} {}", note.channel(), note.payload())
                }
                _ => println!("another message"),
            }
        }
    });
    Ok(client)
}

async fn query(client: &Client) -> Result<()> {
    let statement = client
        .prepare_typed("SELECT $1 + n, $2 FROM generate_series(1, 3) n", &[Type::INT4, Type::TEXT])
        .await?;
    for row in client.query(&statement, &[&7, &"text"]).await? {
        println!("{} {}", row.get::<_, i32>(0), row.get::<_, &str>(1));
    }
    let (one, other) = future::try_join(
        client.query_one("SELECT 1::int8", &[]),
        client.query_one("SELECT $1::bool", &[&true]),
    )
    .await?;
    println!("{} {}", one.get::<_, i64>(0), other.get::<_, bool>(0));
    if let Err(error) = client.query("SELECT missing", &[]).await {
        println!("{:?} {}", error.code(), error);
    }
    for message in client.simple_query("SELECT 1 AS a; SELECT 'b' AS b").await? {
        if let SimpleQueryMessage::Row(row) = message {
            println!("{:?}", row.get(0));
        }
    }
    Ok(())
}

async fn copy(client: &mut Client) -> Result<()> {
    client.batch_execute("CREATE TEMPORARY TABLE spoken (a text)").await?;
    let transaction = client.transaction().await?;
    let sink = transaction.copy_in("COPY spoken FROM STDIN").await?;
    pin_mut!(sink);
    sink.send(Bytes::from_static(b"one\ntwo\n")).await?;
    println!("{} rows", sink.finish().await?);
    let rows: Vec<Bytes> =
        transaction.copy_out("COPY spoken TO STDOUT").await?.try_collect().await?;
    println!("{:?}", rows);
    let portal = transaction.bind("SELECT * FROM spoken", &[]).await?;
    println!("{}", transaction.query_portal(&portal, 1).await?.len());
    println!("{}", transaction.query_portal(&portal, 5).await?.len());
    Ok(transaction.commit().await?)
}

async fn speak() -> Result<()> {
    let mut client = connect().await?;
    query(&client).await?;
    copy(&mut client).await?;
    client.batch_execute("DO 'BEGIN RAISE NOTICE ''n''; END'").await?;
    client.batch_execute("LISTEN c; NOTIFY c, 'payload'").await?;
    let rows = client.query_raw("SELECT generate_series(1, 5)", Vec::<String>::new()).await?;
    pin_mut!(rows);
    while let Some(row) = rows.next().await {
        println!("{}", row?.get::<_, i32>(0));
    }
    Ok(())
}

fn main() -> Result<()> {
    let runtime = tokio::runtime::Builder::new_current_thread().enable_all().build()?;
    tokio::task::LocalSet::new().block_on(&runtime, speak())
}
