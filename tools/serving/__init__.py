"""The language server for interchange files: what `tools/language-server` is made of."""
