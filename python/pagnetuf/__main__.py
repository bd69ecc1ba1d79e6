"""The commands `pagnetuf board|poster|explore|atlas|rules ..`; each answers --help."""
from .commands.command_line import main

main()
