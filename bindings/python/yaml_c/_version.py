"""The version of all that is in the repository, as crates/yaml_cli_program/src/version.rt states it."""

VERSION = "3.0.0"
