//! What the peer keeps of a store: keys, the catalogue after its records, and each table's files at the latest version.
use hmac::Mac;
use serde::Deserialize;
use serde_json::{json, Value};
use std::collections::{BTreeMap, HashMap};

/// The size in bytes of the pieces in which a file is read.
pub const PIECE: usize = 1 << 16;

#[derive(Deserialize)]
#[serde(rename_all = "camelCase")]
pub struct File {
    pub path: String,
    #[serde(default)]
    pub partition_values: BTreeMap<String, Option<String>>,
    pub size: u64,
    pub stats: Option<String>,
}

#[derive(Deserialize)]
#[serde(rename_all = "camelCase")]
struct Action {
    meta_data: Option<Value>,
    add: Option<File>,
    remove: Option<Removed>,
}

#[derive(Deserialize)]
struct Removed {
    path: String,
}

/// A table's latest version: the protocol and metaData lines of a reply, and the files in order of path.
pub struct Log {
    pub version: u64,
    pub head: Vec<u8>,
    pub files: Vec<File>,
}

impl Log {
    fn read(location: &str) -> Log {
        let mut live: BTreeMap<String, File> = BTreeMap::new();
        let (mut meta, mut next) = (Value::Null, 0);
        while let Ok(text) = std::fs::read(format!("{location}/_delta_log/{next:020}.json")) {
            for line in text.split(|b| *b == b'\n').filter(|l| !l.trim_ascii().is_empty()) {
                let action: Action = serde_json::from_slice(line).expect("action");
                if let Some(file) = action.add {
                    live.insert(file.path.clone(), file);
                } else if let Some(removed) = action.remove {
                    live.remove(&removed.path);
                } else if let Some(value) = action.meta_data {
                    meta = value;
                }
            }
            next += 1;
        }
        assert!(next > 0, "no commits in {location}");
        let mut fields = json!({"format": {"provider": "parquet"}, "id": meta["id"], "partitionColumns": meta["partitionColumns"],
            "schemaString": meta["schemaString"]});
        for name in ["name", "description"] {
            if meta[name].is_string() {
                fields[name] = meta[name].clone();
            }
        }
        if meta["configuration"].as_object().map_or(false, |c| !c.is_empty()) {
            fields["configuration"] = meta["configuration"].clone();
        }
        let head = format!("{}\n{}\n", json!({"protocol": {"minReaderVersion": 1}}), json!({ "metaData": fields }));
        Log { version: next - 1, head: head.into_bytes(), files: live.into_values().collect() }
    }
}

pub struct Binding {
    pub edition: u64,
    pub location: String,
    pub log: Log,
}

pub struct Grant {
    pub edition: u64,
}

pub struct Recipient {
    pub expires: Option<u64>,
    pub grants: BTreeMap<String, Grant>,
}

/// The tables of a share by schema and name.
pub type Tables = BTreeMap<(String, String), Binding>;

pub struct State {
    pub token_key: crate::link::Key,
    pub link_key: crate::link::Key,
    pub ttl: u64,
    pub endpoint: String,
    pub by_digest: HashMap<[u8; 32], String>,
    pub recipients: HashMap<String, Recipient>,
    shares: BTreeMap<String, Tables>,
}

impl State {
    pub fn tables(&self, share: &str) -> &Tables {
        &self.shares[share]
    }

    /// Reads the store in the current folder.
    pub fn read() -> State {
        let text = std::fs::read("_share_log/config.json").expect("configuration");
        let config: Value = serde_json::from_slice(&text).expect("configuration");
        let key = |name: &str| {
            let bytes = hex::decode(config[name].as_str().expect("key")).expect("key");
            crate::link::Key::new_from_slice(&bytes).expect("any length is good")
        };
        let mut state = State {
            token_key: key("tokenKey"),
            link_key: key("linkKey"),
            ttl: config["linkTtlSeconds"].as_u64().expect("ttl"),
            endpoint: config["endpoint"].as_str().expect("endpoint").to_string(),
            by_digest: HashMap::new(),
            recipients: HashMap::new(),
            shares: BTreeMap::new(),
        };
        let mut editions: HashMap<String, u64> = HashMap::new();
        let mut next = 0;
        while let Ok(text) = std::fs::read(format!("_share_log/{next:020}.json")) {
            let record: Value = serde_json::from_slice(&text).expect("record");
            let (kind, edit) = record["edit"].as_object().and_then(|o| o.iter().next()).expect("edit");
            state.apply(&mut editions, kind, edit);
            next += 1;
        }
        state
    }

    fn apply(&mut self, editions: &mut HashMap<String, u64>, kind: &str, edit: &Value) {
        let text = |name: &str| edit[name].as_str().expect("text").to_string();
        let mut edition = |of: String| {
            let count = editions.entry(of).or_insert(0);
            *count += 1;
            *count
        };
        match kind {
            "newShare" => drop(self.shares.insert(text("name"), Tables::new())),
            "dropShare" => {
                self.shares.remove(&text("name"));
                self.recipients.values_mut().for_each(|r| drop(r.grants.remove(&text("name"))));
            }
            "bind" => {
                let (name, location) = ((text("schema"), text("table")), text("location"));
                let edition = edition(format!("{}/{}/{}", text("share"), name.0, name.1));
                let binding = Binding { edition, log: Log::read(&location), location };
                self.shares.get_mut(&text("share")).expect("share").insert(name, binding);
            }
            "unbind" => drop(self.shares.get_mut(&text("share")).expect("share").remove(&(text("schema"), text("table")))),
            "newRecipient" | "rotate" => {
                let digest = hex::decode(text("digest")).expect("digest").try_into().expect("32 bytes");
                self.by_digest.retain(|_, name| *name != text("name"));
                self.by_digest.insert(digest, text("name"));
                let recipient = self.recipients.entry(text("name")).or_insert(Recipient { expires: None, grants: BTreeMap::new() });
                recipient.expires = edit["expires"].as_u64();
            }
            "dropRecipient" => {
                self.recipients.remove(&text("name"));
                self.by_digest.retain(|_, name| *name != text("name"));
            }
            "grant" => {
                let edition = edition(format!("{} {}", text("recipient"), text("share")));
                self.recipients.get_mut(&text("recipient")).expect("recipient").grants.insert(text("share"), Grant { edition });
            }
            "revoke" => drop(self.recipients.get_mut(&text("recipient")).expect("recipient").grants.remove(&text("share"))),
            other => panic!("edit {other}"),
        }
    }
}
