#!/usr/bin/env bash
# Installs Debian packages by name. Scripts that run at the same time take turns. Usage: tests/install.sh [OPTION..] PACKAGE.., with apt-get's options.
set -euo pipefail
exec 9> "${TMPDIR:-/tmp}/hisproat-install.lock"
flock 9
export DEBIAN_FRONTEND=noninteractive
{ apt-get update -qq && apt-get install -y -qq "$@"; } > /dev/null
