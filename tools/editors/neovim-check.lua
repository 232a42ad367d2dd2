-- Tries the language server in a headless Neovim, for tools/check-editor: prints `ok` or `not ok` and a name, line by line.
local here = vim.fn.fnamemodify(debug.getinfo(1, "S").source:sub(2), ":p:h")
local WAIT = 20000

local function say(holds, what)
  io.stdout:write((holds and "ok " or "not ok ") .. what .. "\n")
end

local function lines()
  return vim.api.nvim_buf_get_lines(0, 0, -1, false)
end

-- The cursor's position at the nth line with this text, so many bytes into it.
local function at(text, into)
  for number, line in ipairs(lines()) do
    local column = line:find(text, 1, true)
    if column then
      vim.api.nvim_win_set_cursor(0, { number, column - 1 + (into or 0) })
      return vim.lsp.util.make_position_params()
    end
  end
  error("no line has " .. text)
end

local function ask(method, params)
  local answers = vim.lsp.buf_request_sync(0, method, params, WAIT)
  for _, answer in pairs(answers or {}) do
    return answer.result, answer.err or answer.error
  end
end

local function codes()
  local found = {}
  for _, one in ipairs(vim.diagnostic.get(0)) do
    found[one.code or (one.user_data and one.user_data.lsp and one.user_data.lsp.code) or one.message:match("^%w+")] = one
  end
  return found
end

local function wait_for(what, condition)
  say(vim.wait(WAIT, condition, 50), what)
end

local function try_diagnostics()
  wait_for("a warning appears", function() return codes().unread ~= nil end)
  local line = vim.fn.search("square grow")
  local was = vim.fn.getline(line)
  vim.api.nvim_buf_set_lines(0, line - 1, line, false, { "\tsqware grow." })
  wait_for("a fault appears", function() return codes().UndeclaredName ~= nil end)
  local fault = codes().UndeclaredName
  say(fault and fault.lnum == line - 1 and fault.col == 1, "the fault stands at its place")
  vim.api.nvim_buf_set_lines(0, line - 1, line, false, { was })
  wait_for("a fault goes", function() return codes().UndeclaredName == nil and codes().unread ~= nil end)
end

local function try_ways()
  local document = { textDocument = vim.lsp.util.make_text_document_params() }
  local outline = ask("textDocument/documentSymbol", document)
  say(outline and #outline > 3, "outline")
  local found = ask("textDocument/definition", at("by: 1", 1))
  say(found and #found == 1, "definition")
  local params = at("grow: n")
  params.context = { includeDeclaration = false }
  found = ask("textDocument/references", params)
  say(found and #found == 3, "references")
  say(ask("textDocument/hover", at("printString")) ~= nil, "hover")
  found = ask("textDocument/completion", at("square grow", 2))
  say(found and #found == 1 and found[1].label == "square", "completion")
  found = ask("textDocument/foldingRange", document)
  say(found and #found > 3, "folding")
  found = ask("workspace/symbol", { query = "grow" })
  say(found and #found > 0, "workspace symbols")
  local lenses = ask("textDocument/codeLens", document)
  say(lenses and #lenses == 1, "code lenses")
end

local function try_edits()
  at("side :=")
  vim.lsp.buf.rename("length")
  wait_for("renaming", function() return table.concat(lines(), "\n"):find("length := length %* n") ~= nil end)
  local _, fault = ask("textDocument/formatting", {
    textDocument = vim.lsp.util.make_text_document_params(),
    options = { tabSize = 8, insertSpaces = false },
  })
  say(fault ~= nil and fault.message:find("line 11") ~= nil, "formatting that would take a comment away is refused")
  vim.fn.deletebufline("%", vim.fn.search("answer a shape"))
  vim.wait(1000)
  vim.lsp.buf.formatting_sync({}, WAIT)
  say(table.concat(lines(), "\n"):find("Made := 1.\n\t^self new") ~= nil, "formatting")
end

local function main()
  local program = vim.env.STX_PROGRAM
  vim.g.stx_server = { here .. "/../language-server", unpack(program and { "--program", program } or {}) }
  dofile(here .. "/neovim.lua")
  vim.cmd("edit " .. vim.env.STX_FILE)
  wait_for("the server is attached", function() return #vim.lsp.buf_get_clients(0) > 0 end)
  try_diagnostics()
  try_ways()
  try_edits()
end

local fine, fault = pcall(main)
if not fine then
  say(false, tostring(fault))
end
vim.lsp.stop_client(vim.lsp.get_active_clients())
vim.wait(500)
vim.cmd("qall!")
