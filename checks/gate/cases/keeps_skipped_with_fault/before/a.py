"""isort: skip_file"""
import b
import a
)