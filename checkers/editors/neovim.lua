-- Opens the file that the variable FILE names with the client of editors/neovim.lua, and prints what that client has of it.
local function line(...)
  io.stdout:write(table.concat({ ... }, " "), "\n")
end

vim.g.explain_command = { vim.env.EXPLAIN, "lsp" }
local published = false
local show = vim.lsp.handlers["textDocument/publishDiagnostics"]
vim.lsp.handlers["textDocument/publishDiagnostics"] = function(...)
  show(...)
  published = true
end
vim.cmd("luafile editors/neovim.lua")
vim.cmd("edit " .. vim.env.FILE)
local buffer = vim.api.nvim_get_current_buf()
if not vim.wait(20000, function() return published end) then
  line("nothing was published")
end

local document = { uri = vim.uri_from_bufnr(buffer) }
-- Returns the result of a request, and the message of its error.
local function ask(method, params)
  params.textDocument = document
  local answers = vim.lsp.buf_request_sync(buffer, method, params, 20000) or {}
  for _, answer in pairs(answers) do
    local fault = answer.error or answer.err
    return answer.result or {}, fault and fault.message
  end
  return {}
end

local function place_of(it)
  return (it.line + 1) .. ":" .. (it.character + 1)
end

-- Gives what is named at a position another name, as an editor does, and returns where that stands in the text before.
local function rename(position, name)
  local edit = ask("textDocument/rename", { position = position, newName = name })
  vim.lsp.util.apply_workspace_edit(edit, "utf-16")
  return vim.tbl_map(function(it) return place_of(it.range.start) end, (edit.changes or {})[document.uri] or {})
end

-- Gives the function whose header stands in a line another name, and then its old one again, where it can have another one.
local function rename_function(at, text)
  local position = { line = at - 1, character = 4 }
  local range = ask("textDocument/prepareRename", { position = position })
  if not range.start then
    return
  end
  local name = text:sub(range.start.character + 1, range["end"].character)
  line("rename", name, unpack(rename(position, "renamed_" .. name)))
  rename(position, name)
  local _, fault = ask("textDocument/rename", { position = position, newName = name })
  line("refused", at, fault or "by nothing")
  local keyword = ask("textDocument/prepareRename", { position = { line = at - 1, character = 1 } })
  line("keyword", at, keyword.start and "has another name" or "has no other name")
end

for _, it in ipairs(vim.diagnostic.get(buffer)) do
  line("diagnostic", (it.lnum + 1) .. ":" .. (it.col + 1), (it.message:gsub("\n", " / ")))
end
for _, it in ipairs(ask("textDocument/codeLens", {})) do
  line("lens", it.range.start.line + 1, it.command.title)
end
local lines = vim.api.nvim_buf_get_lines(buffer, 0, -1, false)
local whole = { start = { line = 0, character = 0 }, ["end"] = { line = #lines, character = 0 } }
for _, it in ipairs(ask("textDocument/inlayHint", { range = whole })) do
  line("hint", it.position.line + 1, it.label)
end
for at, text in ipairs(lines) do
  local name = text:match("^fun ([%w_]+)")
  if name then
    local hover = ask("textDocument/hover", { position = { line = at - 1, character = 4 } })
    line("hover", at, hover.contents and (hover.contents.value:gsub("\n", " / ")) or "none")
  end
end
for _, it in ipairs(ask("textDocument/documentSymbol", {})) do
  local first, last = it.range.start.line + 1, it.range["end"].line + 1
  line("symbol", it.kind, first .. "-" .. last, place_of(it.selectionRange.start), it.name)
end
for _, it in ipairs(ask("textDocument/foldingRange", {})) do
  line("fold", (it.startLine + 1) .. "-" .. (it.endLine + 1))
end
for at, text in ipairs(lines) do
  if text:match("^fun ") then
    rename_function(at, text)
  end
end
line("text", vim.deep_equal(vim.api.nvim_buf_get_lines(buffer, 0, -1, false), lines) and "is as it was" or "is another one")
for _, it in ipairs(ask("textDocument/codeAction", { range = whole, context = { diagnostics = {} } })) do
  line("action", it.title)
  vim.lsp.util.apply_workspace_edit(it.edit, "utf-16")
  vim.cmd("write! " .. vim.env.FILE)
  break
end
vim.cmd("qall!")
