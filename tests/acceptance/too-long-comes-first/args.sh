#!/bin/sh
# 16,385 blanks: too long, and with no token.
printf 'check\n%16385s\nmit\n' ''
