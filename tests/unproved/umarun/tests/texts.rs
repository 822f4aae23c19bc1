//! Texts of traces that are too long to stand as they are.
use super::*;

/// Four workers, as tests/run has them too: plain items that are kept, SMR items that are freed at once, names, and gifts.
pub fn four_workers(alloc: Global) -> Result<String, Fail> {
    let mut text = String::from_str(
        alloc,
        "uma 1\nworkers 4\ndomains 2\nclock 4294967295 1024\nzone VNODE 448 512 16 0 0 plain\nzone ent 64 64 16 0 0 smr\nnames dir 16 8 16\n",
    )?;
    for worker in 0..4u64 {
        for item in 0..1000u64 {
            let freed = 1000 + item;
            let lines = format!(in alloc; "alloc {worker} VNODE {item}\nalloc {worker} ent {freed}\nfree {worker} {freed}\nlook {worker} {item}\n")?;
            text.push_str(lines.as_str())?;
            if item < 50 {
                let line = format!(in alloc; "bind {worker} {item} {item}\n")?;
                text.push_str(line.as_str())?;
            }
        }
    }
    text.push_str("round\n")?;
    for worker in 0..4u64 {
        let taker = (worker + 1) % 4;
        let line = format!(in alloc; "give {worker} 0 {taker} 2000\n")?;
        text.push_str(line.as_str())?;
    }
    for worker in 0..4u64 {
        for half in 0..500u64 {
            let item = 2 * half + 1;
            let line = format!(in alloc; "free {worker} {item}\n")?;
            text.push_str(line.as_str())?;
        }
        let line = format!(in alloc; "free {worker} 2000\n")?;
        text.push_str(line.as_str())?;
    }
    text.push_str("round\ndrain 0 VNODE\nend\n")?;
    Ok(text)
}

/// Sixteen workers, each of which asks a hundred times for the one item that may be outside.
pub fn sixteen_at_a_limit(alloc: Global) -> Result<String, Fail> {
    let mut text = String::from_str(
        alloc,
        "uma 1\nworkers 16\ndomains 4\nzone box 256 4 4 1 0 plain\n",
    )?;
    for worker in 0..16u64 {
        for slot in 0..100u64 {
            let line = format!(in alloc; "alloc {worker} box {slot}\n")?;
            text.push_str(line.as_str())?;
        }
    }
    text.push_str("end\n")?;
    Ok(text)
}

/// A worker that never leaves its section frees all items that its zone can have, and asks for one more.
pub fn never_leaving(alloc: Global) -> Result<String, Fail> {
    let mut text = String::from_str(
        alloc,
        "uma 1\nworkers 1\ndomains 1\nclock 1 4\ndetail\nzone node 512 4 4 0 0 smr\nenter 0\n",
    )?;
    for slot in 0..32u64 {
        let line = format!(in alloc; "alloc 0 node {slot}\n")?;
        text.push_str(line.as_str())?;
    }
    for slot in 0..32u64 {
        let line = format!(in alloc; "free 0 {slot}\n")?;
        text.push_str(line.as_str())?;
    }
    text.push_str("alloc 0 node 32\nend\n")?;
    Ok(text)
}
