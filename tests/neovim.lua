-- What tests/neovim.sh lets Neovim do. The program is $GQL, and columns are counted in $ENCODING.
local encoding = os.getenv("ENCODING")
local buffer = vim.api.nvim_get_current_buf()
local published = { version = nil, diagnostics = {} }
local ended

local function say(text)
  io.stdout:write(text .. "\n")
end

local function stop(text)
  say("FAILED: " .. text)
  vim.cmd("cquit 1")
end

-- Says what was found, and stops if it isn't what was to be found.
local function judge(what, found, wanted)
  if not vim.deep_equal(found, wanted) then
    stop(what .. ": " .. vim.inspect(found) .. ", and not " .. vim.inspect(wanted))
  end
  local shown = type(found) == "string" and found or vim.inspect(found):gsub("%s+", " ")
  say(what .. ": " .. shown)
end

local function await(what, condition)
  if not vim.wait(5000, condition, 10) then
    stop("waited for " .. what)
  end
end

-- Types these keys, as a user does.
local function type_keys(keys)
  keys = vim.api.nvim_replace_termcodes(keys, true, false, true)
  vim.api.nvim_feedkeys(keys, "xt", false)
end

-- Waits until the server has reported on the text as it is now.
local function await_told(what)
  await("diagnostics of " .. what, function()
    return published.version == vim.lsp.util.buf_versions[buffer]
  end)
end

-- The diagnostics as Neovim shows them: lines and bytes, counted from 0.
local function shown()
  local list = {}
  for _, it in ipairs(vim.diagnostic.get(buffer)) do
    local place = string.format("%d:%d-%d:%d", it.lnum, it.col, it.end_lnum, it.end_col)
    table.insert(list, place .. " " .. it.source .. " " .. it.message)
  end
  return list
end

-- The diagnostics as the server sent them.
local function sent()
  local list = {}
  for _, it in ipairs(published.diagnostics) do
    local range = it.range
    local place = { range.start.line, range.start.character, range["end"].line, range["end"].character }
    table.insert(list, string.format("%d:%d-%d:%d", unpack(place)) .. " " .. it.code)
  end
  return list
end

local function lines()
  return table.concat(vim.api.nvim_buf_get_lines(buffer, 0, -1, true), "\n")
end

local capabilities = vim.lsp.protocol.make_client_capabilities()
capabilities.general = capabilities.general or {}
capabilities.general.positionEncodings = { encoding }
-- A newer Neovim would ask for diagnostics: then they aren't published.
capabilities.textDocument.diagnostic = nil

local client_id = vim.lsp.start_client({
  name = "gql",
  cmd = { os.getenv("GQL"), "lsp" },
  root_dir = vim.fn.getcwd(),
  capabilities = capabilities,
  offset_encoding = encoding,
  -- Each change is sent at once.
  flags = { debounce_text_changes = 0 },
  handlers = {
    ["textDocument/publishDiagnostics"] = function(err, result, context, config)
      vim.lsp.handlers["textDocument/publishDiagnostics"](err, result, context, config)
      published = result
    end,
    ["window/logMessage"] = function(_, result)
      stop("the server logs: " .. result.message)
    end,
  },
  on_exit = function(code, signal)
    ended = { code, signal }
  end,
})
if not client_id then
  stop("the server doesn't start")
end
vim.bo[buffer].filetype = "graphql"
vim.lsp.buf_attach_client(buffer, client_id)
local client = vim.lsp.get_client_by_id(client_id)
await("the server", function()
  return client.initialized or client.server_capabilities ~= nil and published.version ~= nil
end)
judge("encoding", client.server_capabilities.positionEncoding, encoding)

local OPENED = 'query A {a(note: "é日😀")} query B {b}'
judge("opened", lines(), OPENED)
await_told("the opened text")
judge("diagnostics", shown(), {})

-- `()` after the last field. In UTF-8 `é` takes 2, `日` 3 and `😀` 4 bytes, in UTF-16 the emoji takes 2 units.
type_keys("0f}f}i()<Esc>")
judge("typed", lines(), 'query A {a(note: "é日😀")} query B {b()}')
await_told("a mistake")
judge("sent", sent(), { encoding == "utf-8" and "0:42-0:43 SYNTAX" or "0:37-0:38 SYNTAX" })
judge("shown", shown(), { '0:42-0:43 gql syntax error: found ")", expected a name' })

vim.cmd("silent undo")
judge("undone", lines(), OPENED)
await_told("the mended text")
judge("diagnostics", shown(), {})

-- A keyword with two letters in each other's place.
type_keys("0f}wcwqurey<Esc>")
judge("typed", lines(), 'query A {a(note: "é日😀")} qurey B {b}')
await_told("a misspelled keyword")
judge("sent", sent(), { encoding == "utf-8" and "0:31-0:36 SYNTAX" or "0:26-0:31 SYNTAX" })
judge("shown", shown(), {
  '0:31-0:36 gql syntax error: found "qurey", expected "{", "fragment", "mutation", "query", "subscription" or the end of the text'
    .. ' (did you mean "query"?)',
})

local params = vim.lsp.util.make_given_range_params({ 1, 32 }, { 1, 33 }, buffer, encoding)
params.context = { diagnostics = published.diagnostics }
local answers = vim.lsp.buf_request_sync(buffer, "textDocument/codeAction", params, 5000)
local actions = answers and answers[client_id] and answers[client_id].result
if not actions or #actions ~= 1 then
  stop("the actions are " .. vim.inspect(answers))
end
judge("action", actions[1].title, 'Change to "query"')
vim.lsp.util.apply_workspace_edit(actions[1].edit, encoding)
judge("mended", lines(), OPENED)
await_told("the mended text")
judge("diagnostics", shown(), {})

local format = vim.lsp.buf.format or vim.lsp.buf.formatting_sync
if vim.lsp.buf.format then
  vim.lsp.buf.format({ timeout_ms = 5000 })
else
  vim.lsp.buf.formatting_sync(nil, 5000)
end
judge("laid out", lines(), 'query A {\n  a(note: "é日😀")\n}\n\nquery B {\n  b\n}')
await_told("the text that was laid out")
judge("diagnostics", shown(), {})

local outline = vim.lsp.buf_request_sync(buffer, "textDocument/documentSymbol", {
  textDocument = vim.lsp.util.make_text_document_params(buffer),
}, 5000)
local names = {}
for _, symbol in ipairs(outline[client_id].result) do
  table.insert(names, symbol.name)
end
judge("outline", names, { "A", "B" })

vim.cmd("silent write")
vim.lsp.stop_client(client_id)
await("the end of the server", function()
  return ended ~= nil
end)
judge("ended with status and signal", ended, { 0, 0 })
vim.cmd("qall!")
