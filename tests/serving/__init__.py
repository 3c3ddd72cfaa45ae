"""Tests of `rtspd serve` over real sockets on the loopback; tests/serve runs them."""
