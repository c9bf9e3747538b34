#!/bin/sh
# Writes every stored file anew: the expectations, and what the programs of the gate read and must write.
cd "$(dirname "$0")" && exec cargo run --offline --release --bin generate
