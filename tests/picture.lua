-- What tests/picture.py lets Neovim do: it opens the file, and prints its screen once the server has reported two mistakes.
local function settings()
  vim.o.columns, vim.o.lines = 84, 15
  vim.o.number, vim.o.laststatus, vim.o.showmode, vim.o.ruler = true, 0, false, false
  vim.o.signcolumn = "yes"
  vim.o.shortmess = vim.o.shortmess .. "F"
end

settings()
local buffer = vim.api.nvim_get_current_buf()
local client = vim.lsp.start_client({ name = "gql", cmd = { os.getenv("GQL"), "lsp" } })
vim.lsp.buf_attach_client(buffer, client)
vim.wait(5000, function()
  return #vim.diagnostic.get(buffer) == 2
end, 10)
vim.api.nvim_win_set_cursor(0, { 4, 2 })
vim.cmd("redraw!")
local screen = {}
for row = 1, vim.o.lines - 1 do
  local line = {}
  for column = 1, vim.o.columns do
    line[column] = vim.fn.screenstring(row, column)
  end
  table.insert(screen, table.concat(line))
end
local told = {}
for _, it in ipairs(vim.diagnostic.get(buffer)) do
  table.insert(told, { it.lnum, it.col, it.end_lnum, it.end_col, it.message })
end
io.stdout:write(vim.json and vim.json.encode({ screen = screen, told = told }) or vim.fn.json_encode({ screen = screen, told = told }))
vim.lsp.stop_client(client)
vim.cmd("qall!")
