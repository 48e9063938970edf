"""The checks of the tools; `tools/check.sh` runs them."""
