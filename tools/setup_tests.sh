#!/bin/sh
# Installs what the tests need beside the toolchain, as Debian packages. Tests skip what is not there, and say so.
set -eu
apt-get update
apt-get install -y --no-install-recommends python3 python3-pip python3-setuptools python3-wheel python3-pytest \
	python3-pytest-xdist python3-coverage python3-pil python3-aiohttp python3-pyte python3-wcwidth chromium lintian mypy python3-typeshed \
	xfonts-base procps \
	console-setup-linux pcf2bdf less tmux vim
