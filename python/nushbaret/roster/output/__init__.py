"""What the command shows and writes: lines, pages, workbooks, JSON and calendars."""
