"""What examples/import is made of: configurations that presentations are added to, and media made by ffmpeg."""
