-- Neovim's own client (0.7 or later): `:luafile` this file, or copy it into init.lua. `explain` has to be on the PATH.
vim.g.explain_command = vim.g.explain_command or { "explain", "lsp" }
vim.api.nvim_create_autocmd({ "BufRead", "BufNewFile" }, {
  pattern = "*.raml",
  callback = function(event)
    vim.bo[event.buf].filetype = "raml"
    explain_client = explain_client or vim.lsp.start_client({ name = "explain", cmd = vim.g.explain_command })
    vim.lsp.buf_attach_client(event.buf, explain_client)
  end,
})
vim.api.nvim_create_autocmd({ "BufEnter", "InsertLeave" }, { pattern = "*.raml", callback = vim.lsp.codelens.refresh })
