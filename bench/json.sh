#!/usr/bin/env bash
# Times the writing of one entity of eight properties many times, by write_entity and by a Draft into room
# taken before, and prints the ratio of each time to that of serde_json's own printing of an equal value.
# It builds a small program outside the repository; the first build takes some minutes.
set -eu
top=$(cd "$(dirname "$0")/.." && pwd)
work=$(mktemp -d)
trap 'rm -rf "$work"' EXIT
mkdir -p "$work/crates"
for crate in mt_model mt_time mt_json; do
  (cd "$top/crates" && tar -cf - --exclude=out "$crate") | tar -xf - -C "$work/crates"
  grep "^$crate:" "$top/crates.txt" >>"$work/crates.txt"
done
cp "$top/HANDLES" "$work/HANDLES"
cd "$work"
mkdir -p crates/json_bench/src
echo "json_bench: mt_model mt_json serde_json" >>crates.txt
cat >crates/json_bench/src/main.rt <<'RT'
//! Times the writing of an entity beside serde_json's printing of an equal value.
#![tactic(auto)]

use mt_json::{Draft, KeyUse, Level, read_entity, write_entity};
use mt_model::{Entity, Key, Tag};
use serde_json::Value as Json;
use std::io;
use std::time::Instant;

/// How often each way writes.
const COUNT: u32 = 20_000;

const BODY: &str = r#"{"PartitionKey":"customers","RowKey":"000000017","Age":42,"Amount":"9007199254740993","Amount@odata.type":"Edm.Int64","Code":"c9da6455-213d-42c9-9a79-3e9149a57833","Code@odata.type":"Edm.Guid","Email":"someone@example.com","IsActive":true,"Note":"A line of text, \"quoted\", and another one behind it.","Raw":"Zm9vYmFyYmF6","Raw@odata.type":"Edm.Binary","Since":"2026-07-10T00:00:00Z","Since@odata.type":"Edm.DateTime"}"#;

/// What went wrong.
#[derive(Clone, Copy, Debug)]
enum Fault {
    /// There was no memory.
    Memory,

    /// The body is refused.
    Body,

    /// The clock cannot be read.
    Clock,
}

fn read(alloc: std::alloc::Global) -> Result<Entity, Fault> {
    let Ok(body) = read_entity(alloc, BODY.as_bytes(), KeyUse::InBody) else {
        return Err(Fault::Body);
    };
    let (Some(pk), Some(rk)) = (body.pk, body.rk) else {
        return Err(Fault::Body);
    };
    let Ok(key) = Key::read(alloc, pk.as_str(), rk.as_str()) else {
        return Err(Fault::Body);
    };
    let tag = Tag { store: 0, n: 2 };
    Ok(Entity {
        key,
        props: body.props,
        tag,
    })
}

fn nanos_since(rt: &HostRuntime, start: Instant) -> Result<u128, Fault> {
    match start.elapsed(rt) {
        Ok(took) => Ok(took.as_nanos()),
        Err(_) => Err(Fault::Clock),
    }
}

fn time_entity(rt: &HostRuntime, entity: &Entity) -> Result<u128, Fault> {
    let Ok(start) = Instant::now(rt) else {
        return Err(Fault::Clock);
    };
    for _ in 0..COUNT {
        if write_entity(rt.alloc(), entity, Level::Minimal, None).is_err() {
            return Err(Fault::Memory);
        }
    }
    nanos_since(rt, start)
}

fn time_draft(rt: &HostRuntime, entity: &Entity) -> Result<u128, Fault> {
    let Ok(draft) = Draft::new(rt.alloc(), &entity.key, &entity.props, Level::Minimal, None) else {
        return Err(Fault::Memory);
    };
    let Ok(start) = Instant::now(rt) else {
        return Err(Fault::Clock);
    };
    for _ in 0..COUNT {
        let Ok(mut room) = Vec::with_capacity(rt.alloc(), draft.size(entity.tag)) else {
            return Err(Fault::Memory);
        };
        draft.write(entity.tag, &mut room);
    }
    nanos_since(rt, start)
}

fn time_json(rt: &HostRuntime, value: &Json) -> Result<u128, Fault> {
    let Ok(start) = Instant::now(rt) else {
        return Err(Fault::Clock);
    };
    for _ in 0..COUNT {
        if value.to_string(rt.alloc()).is_err() {
            return Err(Fault::Memory);
        }
    }
    nanos_since(rt, start)
}

fn print_ratio(rt: &HostRuntime, name: &str, took: u128, by: u128) -> io::Result<()> {
    let hundredths = took.saturating_mul(100) / by.max(1);
    let whole = hundredths / 100;
    let rest = hundredths % 100;
    println!(rt; "{name}: {whole}.{rest:02} times serde_json's printing")
}

fn times(rt: &HostRuntime) -> Result<(u128, u128, u128), Fault> {
    let entity = read(rt.alloc())?;
    let Ok(text) = write_entity(rt.alloc(), &entity, Level::Minimal, None) else {
        return Err(Fault::Memory);
    };
    let Ok(value) = Json::from_str(rt.alloc(), text.as_str()) else {
        return Err(Fault::Body);
    };
    let entities = time_entity(rt, &entity)?;
    let drafts = time_draft(rt, &entity)?;
    let values = time_json(rt, &value)?;
    Ok((entities, drafts, values))
}

fn main(rt: HostRuntime) -> io::Result<()> {
    match times(&rt) {
        Ok((entities, drafts, values)) => {
            print_ratio(&rt, "write_entity", entities, values)?;
            print_ratio(&rt, "Draft::write", drafts, values)
        }
        Err(fault) => println!(rt; "failed: {fault:?}"),
    }
}
RT
cd crates/json_bench
rt run >"$work/out" 2>"$work/log" || { cat "$work/out"; tail -n 20 "$work/log"; exit 1; }
cat "$work/out"
