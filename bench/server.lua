-- Drives justfile_server from Neovim: server.sh runs it without a screen, with the lines of docs/EDITORS.md. A justfile
-- with an error is open. Reads the diagnostics and the symbols, types, formats, renames, completes, goes to a
-- definition. Prints a line for each part, and ends Neovim with status 1 if one is otherwise than it should be.
local failed = false

local function row(what, got, wanted)
  local same = vim.deep_equal(got, wanted)
  io.stdout:write(("%-40s %s\n"):format(what, same and "as it should" or "FAILED: " .. vim.inspect(got)))
  failed = failed or not same
end

local function lines()
  return vim.api.nvim_buf_get_lines(0, 0, -1, false)
end

-- what the server answers about the document, with more parameters
local function ask(method, more)
  local parameters = vim.tbl_extend("force", vim.lsp.util.make_position_params(0, "utf-16"), more or {})
  local answers = vim.lsp.buf_request_sync(0, "textDocument/" .. method, parameters, 5000) or {}
  for _, answer in pairs(answers) do
    return answer.result
  end
end

-- whether something holds within five seconds
local function soon(holds)
  return vim.wait(5000, holds, 10)
end

local function go()
  row("the server is attached", soon(function() return next(vim.lsp.buf_get_clients(0)) ~= nil end), true)
  local client = next(vim.lsp.buf_get_clients(0))
  row("a diagnostic of the error", soon(function() return #vim.diagnostic.get(0) == 1 end), true)
  local found = vim.diagnostic.get(0)[1] or {}
  row("its line", found.lnum, 0)

  vim.api.nvim_buf_set_text(0, 0, #lines()[1], 0, #lines()[1], { '"' })
  row("none after it is mended", soon(function() return #vim.diagnostic.get(0) == 0 end), true)
  local names = vim.tbl_map(function(symbol) return symbol.name end, ask("documentSymbol") or {})
  row("the symbols", names, { "e", "build", "clean" })

  vim.lsp.buf.formatting_sync(nil, 5000)
  row("the formatted text", lines(), { 'e := "é𝄞"', "build: clean", "    echo {{ e }}", "clean:", "    rm -rf out" })

  vim.api.nvim_win_set_cursor(0, { 2, 8 })
  local place = (ask("definition") or {})[1] or {}
  row("the definition's line", place.range and place.range.start.line, 3)
  vim.lsp.buf.rename("tidy")
  row("the name is replaced", soon(function() return lines()[4] == "tidy:" end), true)
  row("and where it is used", lines()[2], "build: tidy")

  vim.api.nvim_win_set_cursor(0, { 2, 7 })
  local labels = vim.tbl_map(function(item) return item.label end, (ask("completion") or { items = {} }).items)
  row("what can be written after a colon", labels, { "tidy" })
  row("what is known of a name", ((ask("hover") or {}).contents or {}).value, "recipe tidy")

  vim.lsp.stop_client(client)
  row("the server ends", soon(function() return vim.lsp.client_is_stopped(client) end), true)
end

local ran, message = pcall(go)
row("no fault of the script", ran or message, true)
vim.cmd(failed and "cquit 1" or "qall!")
