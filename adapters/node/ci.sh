#!/usr/bin/env bash
# Runs the adapter's tests. They need Debian's nodejs and node-typescript, and compare with node-babel7 where it is there.
# As root with CI set, what is missing is installed; elsewhere the tests are skipped where something is missing.
set -euo pipefail
cd "$(dirname "$0")"

has_node() { command -v node >/dev/null && node -e 'const [major, minor] = process.versions.node.split("."); process.exit(major > 18 || (major == 18 && minor >= 19) ? 0 : 1)'; }
has_typescript() { node --input-type=module -e 'import { loadTypescript } from "./src/typescript.js"; loadTypescript();' 2>/dev/null; }
is_ready() { has_node && has_typescript; }

if ! is_ready && [[ "$(id -u)" == 0 && -n "${CI:-}" ]]; then
  { apt-get update -qq && apt-get install -y -qq --no-install-recommends nodejs node-typescript node-babel7; } ||
    echo "adapters/node: Debian's packages could not be installed"
fi
if ! is_ready; then
  echo "adapters/node: skipped, for want of node 18.19 or later and a typescript package"
  exit 0
fi
node --test test/*.test.js
