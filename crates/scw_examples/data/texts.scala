object Main {
  def repeated(s: String, n: Int): String = { var t: String = ""; var i: Int = 0; while (i < n) { t = t + s; i = i + 1 }; t };
  def main(args: Array[String]): Unit = {
    val name: String = "Scala";
    println(name + " 2." + 12);
    println("a Boolean " + true + ", an Int " + 1 + ", a Long " + 2L);
    println(repeated("ab", 4));
    println("1 + 1 = " + (1 + 1))
  }
}
