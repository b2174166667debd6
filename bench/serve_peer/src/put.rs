//! A commit at the peer: the lines of the offer's actions, put as a bare put does it. Nothing of the offer is checked, and nobody is told of it.
use crate::reply::{json, Refusal};
use hyper::{Body, Request, Response};
use serde::Deserialize;
use serde_json::{json, Value};
use std::fs::{self, File};
use std::io::{self, Write};
use std::sync::atomic::{AtomicU64, Ordering};

static VERSIONS: AtomicU64 = AtomicU64::new(0);

#[derive(Deserialize)]
struct Offer {
    location: String,
    actions: Vec<Value>,
}

/// Writes the text beside, syncs it, links it to its name, syncs the folder, and removes the other name.
fn put(location: &str, version: u64, text: &[u8]) -> io::Result<()> {
    let folder = format!("bare/hyper-{}/{location}", std::process::id());
    fs::create_dir_all(&folder)?;
    let beside = format!("{folder}/beside-{version}");
    let mut file = File::options().write(true).create_new(true).open(&beside)?;
    file.write_all(text)?;
    file.sync_all()?;
    fs::hard_link(&beside, format!("{folder}/{version:020}.json"))?;
    File::open(&folder)?.sync_all()?;
    fs::remove_file(&beside)
}

pub async fn commit(request: Request<Body>) -> Result<Response<Body>, Refusal> {
    let body = hyper::body::to_bytes(request.into_body()).await.map_err(|_| Refusal::BadBody)?;
    let offer: Offer = serde_json::from_slice(&body).map_err(|_| Refusal::BadBody)?;
    let version = VERSIONS.fetch_add(1, Ordering::Relaxed);
    let text: String = offer.actions.iter().map(|action| format!("{action}\n")).collect();
    let stored = tokio::task::spawn_blocking(move || put(&offer.location, version, text.as_bytes())).await;
    stored.map_err(|_| Refusal::BadBody)?.map_err(|_| Refusal::BadBody)?;
    Ok(json(&json!({ "version": version })))
}
