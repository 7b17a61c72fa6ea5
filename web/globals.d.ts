// What tsc (4.8) doesn't know yet about browsers, or about names that the page's parts get from elsewhere.
declare class CompressionStream extends TransformStream { constructor(format: string) }
declare class DecompressionStream extends TransformStream { constructor(format: string) }
