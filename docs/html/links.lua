-- Leads the links of a page to the HTML pages beside the Markdown, and to those of the manual pages.
function Link(link)
  if not link.target:find('^%a+:') then
    link.target = link.target:gsub('%.md$', '.html'):gsub('%.md#', '.html#'):gsub('%.1$', '.1.html')
  end
  return link
end
