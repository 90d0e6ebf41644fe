"""The version that library, header, bindings, module and tool share: docs/VERSIONS.md."""

VERSION = "1.1.0"
