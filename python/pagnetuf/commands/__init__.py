"""The commands of the package; `command_line` finds them."""
