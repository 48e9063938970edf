"""What the tools know of dossiers: their slots, spreadsheet exports of them, and their days."""
