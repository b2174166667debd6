//! What a Rust programmer would write with hyper, tokio and serde_json to share Delta tables: the peer beside which `bench/serve`
//! measures. `serve_peer serve PORT WORKERS`, in the folder of a store.
//!
//! It reads the configuration, the catalogue's records and the tables' logs once, at the start, and answers the lists, a table's
//! version, metadata and query, and signed links to files. Predicates and ranges are passed over. A commit is stored, whatever it is, and
//! seen by nobody.
mod link;
mod page;
mod put;
mod reply;
mod store;

use hyper::header::{HeaderValue, AUTHORIZATION, CONNECTION};
use hyper::service::{make_service_fn, service_fn};
use hyper::{Body, Method, Request, Response, Server};
use page::Asked;
use percent_encoding::percent_decode_str;
use reply::{json, lines, version_only, Refusal};
use serde_json::{json, Value};
use sha2::{Digest, Sha256};
use std::convert::Infallible;
use std::sync::Arc;
use std::time::{SystemTime, UNIX_EPOCH};
use store::{Recipient, State};

const PREFIX: &str = "/delta-sharing";
const LARGEST_BODY: usize = 16 << 20;

type Answer = Result<Response<Body>, Refusal>;

fn now() -> u64 {
    SystemTime::now().duration_since(UNIX_EPOCH).map_or(0, |d| d.as_millis() as u64)
}

fn bearer<'a>(state: &'a State, request: &Request<Body>) -> Result<(&'a str, &'a Recipient), Refusal> {
    let field = request.headers().get(AUTHORIZATION).and_then(|v| v.to_str().ok()).ok_or(Refusal::Unauthenticated)?;
    let (word, token) = field.split_once(' ').ok_or(Refusal::Unauthenticated)?;
    if !word.eq_ignore_ascii_case("bearer") {
        return Err(Refusal::Unauthenticated);
    }
    let digest: [u8; 32] = Sha256::digest(token.trim_start()).into();
    let name = state.by_digest.get(&digest).ok_or(Refusal::Unauthenticated)?;
    let recipient = &state.recipients[name];
    match recipient.expires {
        Some(expires) if expires <= now() => Err(Refusal::Unauthenticated),
        _ => Ok((name, recipient)),
    }
}

fn items(items: Vec<Value>) -> Answer {
    Ok(json(&json!({ "items": items })))
}

fn all_tables(state: &State, recipient: &Recipient, share: &str) -> Answer {
    recipient.grants.get(share).ok_or(Refusal::NotFound)?;
    let tables = state.tables(share).keys();
    items(tables.map(|(schema, table)| json!({"name": table, "schema": schema, "share": share})).collect())
}

async fn table(asked: Asked<'_>, state: &State, what: &str, request: Request<Body>) -> Answer {
    let log = &asked.binding.log;
    match what {
        "version" => Ok(version_only(log.version)),
        "metadata" => Ok(lines(log.version, log.head.clone())),
        "query" => {
            let body = hyper::body::to_bytes(request.into_body()).await.map_err(|_| Refusal::BadBody)?;
            if body.len() > LARGEST_BODY { Err(Refusal::BadBody) } else { page::query(state, &asked, &body) }
        }
        _ => Err(Refusal::NotFound),
    }
}

async fn by_token(state: &State, segments: &[&str], request: Request<Body>) -> Answer {
    let (name, recipient) = bearer(state, &request)?;
    match *segments {
        ["shares"] => items(recipient.grants.keys().map(|share| json!({ "name": share })).collect()),
        ["shares", share] if recipient.grants.contains_key(share) => Ok(json(&json!({"share": {"name": share}}))),
        ["shares", share, "all-tables"] => all_tables(state, recipient, share),
        ["shares", share, "schemas", schema, "tables", table_name, what] => {
            let grant = recipient.grants.get(share).ok_or(Refusal::NotFound)?;
            let binding = state.tables(share).get(&(schema.into(), table_name.into())).ok_or(Refusal::NotFound)?;
            table(Asked { recipient: name, share, schema, table: table_name, grant, binding }, state, what, request).await
        }
        _ => Err(Refusal::NotFound),
    }
}

async fn answer(state: &State, request: Request<Body>) -> Answer {
    let path = request.uri().path().strip_prefix(PREFIX).ok_or(Refusal::NotFound)?.to_string();
    let method = request.method().clone();
    if path.starts_with("/files/") {
        let target = request.uri().to_string();
        return if method == Method::GET { link::file(state, &target).await } else { Err(Refusal::MethodNotAllowed("GET")) };
    }
    if path == "/provider/commit" {
        return if method == Method::POST { put::commit(request).await } else { Err(Refusal::MethodNotAllowed("POST")) };
    }
    let lowered = |s: &str| percent_decode_str(s).decode_utf8_lossy().to_ascii_lowercase();
    let segments: Vec<String> = path[1.min(path.len())..].split('/').map(lowered).collect();
    let segments: Vec<&str> = segments.iter().map(String::as_str).collect();
    let (wanted, name) = if segments.last() == Some(&"query") { (Method::POST, "POST") } else { (Method::GET, "GET") };
    if method != wanted {
        return Err(Refusal::MethodNotAllowed(name));
    }
    by_token(state, &segments, request).await
}

async fn respond(state: Arc<State>, request: Request<Body>) -> Result<Response<Body>, Infallible> {
    let closes = request.headers().get(CONNECTION).map_or(false, |v| v.as_bytes().eq_ignore_ascii_case(b"close"));
    let mut response = answer(&state, request).await.unwrap_or_else(Refusal::response);
    if closes {
        response.headers_mut().insert(CONNECTION, HeaderValue::from_static("close"));
    }
    Ok(response)
}

fn main() {
    let words: Vec<String> = std::env::args().skip(1).collect();
    let (port, workers) = match &words[..] {
        [serve, port, workers] if serve == "serve" => (port.parse::<u16>().expect("port"), workers.parse().expect("workers")),
        _ => panic!("serve_peer serve PORT WORKERS"),
    };
    let state = Arc::new(State::read());
    let runtime = tokio::runtime::Builder::new_multi_thread().worker_threads(workers).enable_all().build().expect("runtime");
    runtime.block_on(async move {
        let service = make_service_fn(move |_| {
            let state = state.clone();
            async move { Ok::<_, Infallible>(service_fn(move |request| respond(state.clone(), request))) }
        });
        Server::bind(&([127, 0, 0, 1], port).into()).tcp_nodelay(true).serve(service).await.expect("listener");
    });
}
