"""A language server for the Viper files that `remduska` takes: `remduska lsp`, over the standard streams."""
