#!/usr/bin/env python3
"""What the root key work of a join takes, by the vault and without it; bench/answer shows it beside the time of a line.

It is the MIC of the join-request, JSIntKey, one sealed block of the join-accept, the three network session keys and the AppSKey:

- vault: by a vault over key schedules that were made once, as `lwdesk answer` has it;
- stored: the same blocks under two schedules at hand, with no vault;
- plain: by the derivations from the device's two keys, which make a key schedule for each;
- schedule: one key schedule, of which a join still makes four, for JSIntKey and for the KEK at each of three keys.

It takes a minute or two where the crates were checked before.
"""

import os
import shutil
import subprocess
import sys
import tempfile

TOP = os.path.dirname(os.path.dirname(os.path.abspath(__file__)))
CRATES = ("wire_ids", "aes_cmac", "key_vault")
TIMES = 200_000

CRATES_TXT = """wire_ids: hex
aes_cmac:
key_vault: wire_ids aes_cmac
keys_bench: wire_ids aes_cmac key_vault
"""

SOURCE = """//! The root key work of a join, many times: `keys_bench MODE TIMES`.
#![tactic(auto)]

ghost use Rattle.std.specs.Prelude.{◌≡◌, ◌<◌, ◌≤◌, length, vec_len, IfOk};
ghost use Rattle.aes_cmac.specs.Aes.{encrypted, decrypted};
ghost use Rattle.key_vault.specs.Table.{Serves, Encrypts, Decrypts, root_key};

use aes_cmac::RoundKeys;
use key_vault::{
    BlockFn, KeyRing, RootKind, Vault, app_s_key_of, js_int_of, session_keys_of,
};
use std::alloc::Global;
use std::process::ExitCode;
use std::env;
use wire_ids::{Eui, Memory, Nonce24, RootKeys, Seed};

const TEXT: [u8; 19] = [7; 19];

fn keys() -> RootKeys {
    RootKeys {
        nwk: [33; 16],
        app: [161; 16],
    }
}

fn seed(i: u32) -> Seed {
    Seed {
        nonce: Nonce24::from_be_bytes([0, 0, (i % 256) as u8]),
        join_eui: Eui(1),
        counter: (i % 65536) as u16,
    }
}

fn with(sum: u128, block: [u8; 16]) -> u128 {
    sum ^ u128::from_be_bytes(block)
}

fn plain(times: u32) -> u128 {
    let keys = keys();
    let mut sum = 0u128;
    for i in 0..times {
        let seed = seed(i);
        sum = with(sum, RoundKeys::new(&keys.nwk).cmac(&TEXT));
        sum = with(sum, js_int_of(&keys.nwk, Eui(u64::from(i))));
        sum = with(sum, RoundKeys::new(&keys.nwk).decrypt(sum.to_be_bytes()));
        let network = session_keys_of(&keys.nwk, &seed);
        sum = with(with(with(sum, network.f), network.s), network.e);
        sum = with(sum, app_s_key_of(&keys.app, &seed));
    }
    sum
}

fn stored(times: u32) -> u128 {
    let keys = keys();
    let nwk = RoundKeys::new(&keys.nwk);
    let app = RoundKeys::new(&keys.app);
    let mut sum = 0u128;
    for i in 0..times {
        let first = u128::from(i);
        sum = with(sum, nwk.cmac(&TEXT));
        sum = with(sum, nwk.encrypt(first.to_be_bytes()));
        sum = with(sum, nwk.decrypt(sum.to_be_bytes()));
        sum = with(sum, nwk.encrypt((first ^ 1).to_be_bytes()));
        sum = with(sum, nwk.encrypt((first ^ 3).to_be_bytes()));
        sum = with(sum, nwk.encrypt((first ^ 4).to_be_bytes()));
        sum = with(sum, app.encrypt((first ^ 2).to_be_bytes()));
    }
    sum
}

fn expanded(times: u32) -> u128 {
    let mut sum = 0u128;
    for _ in 0..times {
        sum = with(sum, RoundKeys::new(&sum.to_be_bytes()).encrypt(sum.to_be_bytes()));
    }
    sum
}

fn chained(times: u32) -> u128 {
    let keys = RoundKeys::new(&keys().nwk);
    let mut sum = 0u128;
    for _ in 0..times {
        sum = with(sum, keys.encrypt(sum.to_be_bytes()));
    }
    sum
}

fn by_vault<E: BlockFn, D: BlockFn>(vault: &Vault<E, D>, times: u32) -> u128
    requires { 0 < length vault.now }
{
    let mut sum = 0u128;
    for i in 0..times {
        let seed = seed(i);
        sum = with(sum, vault.nwk_cmac(0, &TEXT));
        sum = with(sum, vault.js_int(0, Eui(u64::from(i))));
        let mut blocks = [sum.to_be_bytes()];
        vault.seal(0, Eui(u64::from(i)), false, &mut blocks);
        sum = with(sum, blocks[0]);
        let network = vault.session_keys(0, &seed);
        sum = with(with(with(sum, network.f), network.s), network.e);
        sum = with(sum, vault.app_s_key(0, &seed));
    }
    sum
}

fn with_closures<E: BlockFn, D: BlockFn>(
    keys: &Vec<RootKeys>,
    encrypt: E,
    decrypt: D,
    times: u32,
) -> u128
    requires some { 0 < vec_len keys.now }
    requires few { vec_len keys.now ≤ 4096 }
    requires may_encrypt { Serves (E.may encrypt) (vec_len keys.now) }
    requires encrypts { Encrypts (E.gives encrypt) keys.now.items }
    requires may_decrypt { Serves (D.may decrypt) (vec_len keys.now) }
    requires decrypts { Decrypts (D.gives decrypt) keys.now.items }
{
    let vault = Vault::new(keys, encrypt, decrypt);
    by_vault(&vault, times)
}

fn one_row(alloc: Global) -> Result<Vec<RootKeys>, Memory>
    ensures { IfOk result (λ rows. vec_len rows ≡ 1) }
{
    let mut rows = Vec::new(alloc);
    match rows.push(keys()) {
        Ok(()) => Ok(rows),
        Err(_) => Err(Memory),
    }
}

fn ringed(alloc: Global, times: u32) -> Result<u128, Memory> {
    let keys = one_row(alloc)?;
    let ring = KeyRing::new(alloc, &keys)?;
    let other = KeyRing::new(alloc, &keys)?;
    let encrypt = move |i: u32, kind: RootKind, block: [u8; 16]| -> [u8; 16]
        requires { i < length ring }
        ensures { result ≡ encrypted (root_key ring kind i) block }
    { ring.encrypt(i, kind, block) };
    let decrypt = move |i: u32, kind: RootKind, block: [u8; 16]| -> [u8; 16]
        requires { i < length other }
        ensures { result ≡ decrypted (root_key other kind i) block }
    { other.decrypt(i, kind, block) };
    Ok(with_closures(&keys, encrypt, decrypt, times))
}

fn main(rt: HostRuntime) -> ExitCode {
    let alloc = rt.alloc();
    let mut times = 0u32;
    let mut name = 0u8;
    let Ok(words) = env::args(&rt) else {
        return ExitCode::from(2);
    };
    for word in words.skip(1) {
        match word.parse::<u32>() {
            Ok(count) => times = count,
            Err(_) => name = word.as_bytes().first().copied().unwrap_or(0),
        }
    }
    let sum = match name {
        b'p' => plain(times),
        b'v' => ringed(alloc, times).unwrap_or(0),
        b's' => stored(times),
        b'e' => expanded(times),
        b'c' => chained(times),
        _ => 0,
    };
    ExitCode::from((sum % 2) as u8)
}
"""


def built(folder):
    """The program, built beside copies of the crates that it stands on."""
    home = os.path.join(folder, "crates", "keys_bench")
    os.makedirs(os.path.join(home, "src"))
    for crate in CRATES:
        shutil.copytree(os.path.join(TOP, "crates", crate), os.path.join(folder, "crates", crate))
    with open(os.path.join(folder, "crates.txt"), "w") as f:
        f.write(CRATES_TXT)
    with open(os.path.join(home, "src", "main.rt"), "w") as f:
        f.write(SOURCE)
    made = subprocess.run(["rt", "run", "--", "plain", "1"], cwd=home, capture_output=True, text=True)
    program = os.path.join(home, "out", "keys_bench")
    if not os.path.exists(program):
        sys.exit(made.stdout + made.stderr)
    return program


def seconds(program, name, times):
    """Seconds of processor time of one run."""
    child = subprocess.Popen([program, name, str(times)])
    _, status, usage = os.wait4(child.pid, 0)
    if os.waitstatus_to_exitcode(status) not in (0, 1):  # the low bit of a sum over all blocks
        sys.exit(f"{program} ended with {status}")
    return usage.ru_utime + usage.ru_stime


def measured():
    """Microseconds a join by name, and of one key schedule: the best of five runs in turn."""
    with tempfile.TemporaryDirectory() as folder:
        program = built(folder)
        best = {"vault": 1e9, "stored": 1e9, "plain": 1e9, "expanded": 1e9, "chained": 1e9}
        for _ in range(5):
            for name in best:
                best[name] = min(best[name], seconds(program, name, TIMES) - seconds(program, name, 0))
    micro = {name: best[name] / TIMES * 1e6 for name in best}
    micro["schedule"] = micro.pop("expanded") - micro.pop("chained")
    return micro


if __name__ == "__main__":
    for name, micro in measured().items():
        print(f"{name:8} {micro:6.2f} us")
