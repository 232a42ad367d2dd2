-- Neovim 0.7 and later: the language server for Smalltalk interchange files.
-- Put the folder of this checkout into `stx_folder`, and load this file from init.lua:
--   dofile("/path/to/checkout/tools/editors/neovim.lua")
-- `vim.g.stx_server` may be another command, as a list of words. The key maps below hold in buffers of interchange files alone.
local here = debug.getinfo(1, "S").source:sub(2)
local stx_folder = vim.g.stx_folder or vim.fn.fnamemodify(here, ":p:h:h:h")

local function mapped(buffer)
  local keys = {
    gd = vim.lsp.buf.definition,
    gr = vim.lsp.buf.references,
    K = vim.lsp.buf.hover,
    ["<leader>rn"] = vim.lsp.buf.rename,
    ["<leader>o"] = vim.lsp.buf.document_symbol,
    ["<leader>w"] = vim.lsp.buf.workspace_symbol,
    ["<leader>f"] = vim.lsp.buf.format or vim.lsp.buf.formatting,
    ["<leader>r"] = vim.lsp.codelens.run,
  }
  for key, action in pairs(keys) do
    vim.keymap.set("n", key, function() action() end, { buffer = buffer, silent = true })
  end
  vim.bo[buffer].omnifunc = "v:lua.vim.lsp.omnifunc"
end

local function started(event)
  vim.bo[event.buf].commentstring = '"%s"'
  local client = vim.lsp.start_client({
    name = "stx",
    cmd = vim.g.stx_server or { stx_folder .. "/tools/language-server" },
    root_dir = vim.fn.fnamemodify(event.file, ":p:h"),
    on_attach = function(_, buffer) mapped(buffer) end,
  })
  if client then
    vim.lsp.buf_attach_client(event.buf, client)
  end
end

vim.api.nvim_create_autocmd({ "BufNewFile", "BufRead" }, {
  pattern = "*.sif",
  callback = function() vim.bo.filetype = "sif" end,
})
vim.api.nvim_create_autocmd("FileType", { pattern = "sif", callback = started })
